/* Job J of the scope paper from C: which pans there are, and the average Brix of each pan's samples. The question and the
 * plan are put together record by record, the answer is printed as the program `listing` prints it. Then the rows' order
 * and words by every path, three refusals, an index, and the chart of the operators. */
#include <inttypes.h>
#include <stdio.h>
#include <string.h>

#include "abe.h"

static int64_t sets[ABE_SETS_WORDS], files[ABE_FILES_WORDS], result[ABE_RESULT_WORDS];
static uint16_t indexes[ABE_INDEXES_WORDS];
static uint64_t figures[ABE_FIGURES_WORDS];

/* Bytes under way. */
static uint8_t bytes[1024];
static size_t used;

static void byte(unsigned b) { bytes[used++] = (uint8_t)b; }
static void mark(const char *two) { byte((uint8_t)two[0]); byte((uint8_t)two[1]); }

/* An element: its kind and an 8-byte little-endian argument. */
static void element(unsigned kind, uint64_t argument) {
    byte(kind);
    for (int i = 0; i < 8; i++) byte((argument >> (8 * i)) & 255);
}
static void variable(unsigned v) { element(2, v); }
static void fixed(unsigned v) { element(3, v); }
static void aggregate(unsigned function, unsigned block, unsigned column) {
    element(4, function | (uint64_t)block << 8 | (uint64_t)column << 16);
}

static void block(unsigned parent) { mark("BK"); byte(parent); }
static void relation_row(unsigned table, unsigned entries) { mark("RW"); byte(table); byte(entries); }
static void output_list(unsigned columns) { mark("OL"); byte(columns); }
static void path(unsigned way, unsigned column) { mark("PL"); byte(way); byte(column); }

/* One run on the buffers above, of which the sets are lent with a length of the caller's choice. */
static unsigned run(const int32_t *words, size_t words_len, const uint8_t *question, size_t question_len,
                    const uint8_t *plan, size_t plan_len, uint64_t budget, size_t sets_len) {
    return abe_run(words, words_len, question, question_len, plan, plan_len, budget, sets, sets_len,
                   files, ABE_FILES_WORDS, indexes, ABE_INDEXES_WORDS, result, ABE_RESULT_WORDS,
                   figures, ABE_FIGURES_WORDS);
}

/* A value: a minus sign where it is absent, the numerator alone where it is whole. */
static void print_value(int64_t n, int64_t d) {
    if (ABE_IS_ABSENT(n, d)) {
        putchar('-');
        return;
    }
    printf("%" PRId64, n);
    if (d != 1) printf("/%" PRId64, d);
}

static void print_answer(unsigned number) {
    if (number != ABE_OK) {
        printf("no %u\n", number);
        return;
    }
    uint64_t rows = figures[ABE_ROWS], columns = figures[ABE_COLUMNS];
    printf("ok %" PRIu64 " %" PRIu64 " %" PRIu64 "\n", rows, columns, figures[ABE_TRIALS]);
    for (uint64_t r = 0; r < rows; r++)
        for (uint64_t c = 0; c < columns; c++) {
            int64_t n = result[ABE_NUMERATOR(r, c, columns)], d = result[ABE_DENOMINATOR(r, c, columns)];
            print_value(n, d);
            putchar(c + 1 < columns ? ' ' : '\n');
        }
}

/* Whether two values are less (-1), equal (0) or more (1): absent is less than every other value, and else cross products
 * tell. These are below 2^52 in size, since no numerator passes 16,777,216,000,000 and no denominator 256. */
static int order(int64_t n, int64_t d, int64_t m, int64_t e) {
    if (ABE_IS_ABSENT(n, d) || ABE_IS_ABSENT(m, e)) return (d > 0) - (e > 0);
    return (n * e > m * d) - (n * e < m * d);
}

/* Whether each row in the result is less than the next, first column first. */
static int ascend(void) {
    uint64_t rows = figures[ABE_ROWS], columns = figures[ABE_COLUMNS];
    for (uint64_t r = 0; r + 1 < rows; r++) {
        int told = 0;
        for (uint64_t c = 0; c < columns && told == 0; c++)
            told = order(result[ABE_NUMERATOR(r, c, columns)], result[ABE_DENOMINATOR(r, c, columns)],
                         result[ABE_NUMERATOR(r + 1, c, columns)], result[ABE_DENOMINATOR(r + 1, c, columns)]);
        if (told >= 0) return 0;
    }
    return 1;
}

/* The question of job J, its two output columns as they are or the average first; gives its length. */
static size_t question_j(uint8_t *question, int average_first) {
    used = 0;
    block(255);
    relation_row(0, 1), variable(0);
    output_list(2);
    if (average_first)
        aggregate(4, 1, 1), variable(0);
    else
        variable(0), aggregate(4, 1, 1);
    block(0);
    relation_row(1, 3), variable(1), fixed(0), variable(2);
    output_list(2), variable(1), variable(2);
    mark("EN");
    memcpy(question, bytes, used);
    return used;
}

/* A plan of file for block 0 and a path for block 1; gives its length. */
static size_t plan_j(uint8_t *plan, unsigned way, unsigned column) {
    used = 0;
    path(0, 0), path(way, column);
    memcpy(plan, bytes, used);
    return used;
}

/* Three pairs of integers that are less, three that are equal, three that are greater. */
static const int64_t pairs[3][3][2] = {{{904, 905}, {-2, -1}, {INT64_MIN, INT64_MAX}},
                                       {{0, 0}, {-7, -7}, {INT64_MAX, INT64_MAX}},
                                       {{906, 905}, {0, -1}, {INT64_MAX, INT64_MIN}}};

/* Whether two integers meet an operator, as C has it. */
static int meets(unsigned operation, int64_t x, int64_t y) {
    switch (operation) {
    case ABE_OPERATOR_EQUAL: return x == y;
    case ABE_OPERATOR_NOT_EQUAL: return x != y;
    case ABE_OPERATOR_LESS: return x < y;
    case ABE_OPERATOR_LESS_EQUAL: return x <= y;
    case ABE_OPERATOR_GREATER: return x > y;
    default: return x >= y;
    }
}

/* Whether an answer of the chart is that of C for all three pairs that stand so; absent meets nothing. */
static int as_in_c(unsigned operation, unsigned relation, unsigned answer) {
    if (relation == ABE_RELATION_ABSENT) return answer == 0;
    for (int i = 0; i < 3; i++)
        if (answer != (unsigned)meets(operation, pairs[relation][i][0], pairs[relation][i][1])) return 0;
    return 1;
}

/* Four bytes, some of them lent to the chart; whether it has kept the others, and all of them by every refusal. */
static uint8_t met[4];
static int met_kept = 1;

/* One call of the chart, the bytes being 6 to 9 before it. */
static unsigned chart(uint32_t operation, uint32_t relation, size_t lent) {
    for (size_t i = 0; i < 4; i++) met[i] = (uint8_t)(6 + i);
    unsigned number = abe_chart(operation, relation, met, lent);
    for (size_t i = number == ABE_OK ? 1 : 0; i < 4; i++) met_kept &= met[i] == 6 + i;
    return number;
}

/* The chart: for each operator the answers at less, equal, greater and absent. */
static void print_chart(void) {
    static const char *const names[] = {"=", "!=", "<", "<=", ">", ">="};
    int same = 1;
    for (unsigned operation = ABE_OPERATOR_EQUAL; operation <= ABE_OPERATOR_GREATER_EQUAL; operation++) {
        printf("chart %s:", names[operation]);
        for (unsigned relation = ABE_RELATION_LESS; relation <= ABE_RELATION_ABSENT; relation++) {
            for (size_t lent = 1; lent <= 4; lent++)
                same &= chart(operation, relation, lent) == ABE_OK && as_in_c(operation, relation, met[0]);
            printf(" %u", (unsigned)met[0]);
        }
        putchar('\n');
    }
    printf("chart %s\n", same ? "as C has it" : "NOT AS C HAS IT");
}

/* Operations and relations that are none, with one to four bytes lent and without one. */
static void print_chart_refusals(void) {
    static const uint32_t none[][2] = {{6, 0}, {0, 4}, {UINT32_MAX, 3}, {3, UINT32_MAX}, {256, 0}, {0, 256}, {6, 4}};
    for (size_t i = 0; i < sizeof none / sizeof none[0]; i++) {
        printf("chart %" PRIu32 " %" PRIu32 ": no", none[i][0], none[i][1]);
        for (size_t lent = 1; lent <= 4; lent++) printf(" %u", chart(none[i][0], none[i][1], lent));
        printf(", without a byte no %u\n", chart(none[i][0], none[i][1], 0));
    }
    printf("chart 0 1: without a byte no %u\n", chart(ABE_OPERATOR_EQUAL, ABE_RELATION_EQUAL, 0));
    printf("met %s\n", met_kept ? "kept" : "CHANGED");
}

int main(void) {
    /* Two tables: pan (one column, four rows); sample, pan, tenths of Brix (three columns, four rows). */
    static const int32_t words[] = {2, 1, 4, 3, 4,
                                    1, 2, 3, 2,
                                    11, 1, 910, 12, 1, 913, 13, 2, 905, 14, 2, 905};
    const size_t words_len = sizeof words / sizeof words[0];
    const uint64_t budget = 1000000000;

    uint8_t question[256], plan[8];
    const size_t question_len = question_j(question, 0), plan_len = plan_j(plan, ABE_PATH_MERGING, 1);
    print_answer(run(words, words_len, question, question_len, plan, plan_len, budget, ABE_SETS_WORDS));

    /* The rows ascend by exact value, first column first: absent first, and 905 before 1823/2. */
    printf("average first: ");
    question_j(question, 1);
    print_answer(run(words, words_len, question, question_len, plan, plan_len, budget, ABE_SETS_WORDS));
    printf("rows %s\n", ascend() ? "ascend" : "DO NOT ASCEND");

    /* By every path, over a result whose rows were wiped out: the same words again. */
    int64_t before[ABE_RESULT_WORDS];
    memcpy(before, result, sizeof before);
    for (unsigned way = ABE_PATH_FILE; way <= ABE_PATH_MERGING; way++) {
        memset(result, 1, 12 * sizeof result[0]);
        plan_j(plan, way, way == ABE_PATH_FILE ? 0 : 1);
        run(words, words_len, question, question_len, plan, plan_len, budget, ABE_SETS_WORDS);
        printf("path %u: %" PRIu64 " trials, %s words\n", way, figures[ABE_TRIALS],
               memcmp(before, result, sizeof before) == 0 ? "the same" : "OTHER");
    }

    /* Refusals: the result keeps its words. */
    printf("sets one word short: ");
    print_answer(run(words, words_len, question, question_len, plan, plan_len, budget, ABE_SETS_WORDS - 1));
    printf("a mark damaged: ");
    question[0] ^= 1;
    print_answer(run(words, words_len, question, question_len, plan, plan_len, budget, ABE_SETS_WORDS));
    question[0] ^= 1;
    printf("budget 7: ");
    print_answer(run(words, words_len, question, question_len, plan, plan_len, 7, ABE_SETS_WORDS));
    printf("result %s\n", memcmp(before, result, sizeof before) == 0 ? "kept" : "CHANGED");

    uint16_t order[4];
    unsigned number = abe_index(words, words_len, 1, 2, order, 4);
    printf("index of Brix: %u;", number);
    for (int i = 0; i < 4; i++) printf(" %u", (unsigned)order[i]);
    putchar('\n');

    print_chart();
    print_chart_refusals();
    return 0;
}
