/* The query engine for C. The archive that goes with it is built by `rt lib` in crates/capi (out/libcapi.a there);
 * `front/run` builds and runs a program over it. `docs/FORMATS.md` has the formats of data, question and plan, byte by byte.
 *
 * Each slice is passed as a pointer and its length in elements (not bytes). A pointer is never null, is aligned for its
 * type and has that many readable elements, also where the length is 0; a buffer that is not const is writable and
 * overlaps no other argument. Nothing else is asked: for all bytes, words, lengths and budgets the calls end and answer
 * with one of the numbers below. They keep no state, allocate nothing and may run at once on buffers of their own. */
#ifndef ABE_H
#define ABE_H

#include <stddef.h>
#include <stdint.h>

#ifdef __cplusplus
extern "C" {
#endif

/* Numbers. The lowest that applies is given; 0 is accepted. */
#define ABE_OK           0  /* accepted */
#define ABE_WORK_SHORT   1  /* sets, files or indexes shorter than below, or fewer than four words for the figures */
#define ABE_RESULT_SHORT 2  /* result under 2,048 words; of abe_index: out has fewer words than the table has rows; of
                               abe_chart: met has no byte */
#define ABE_DATA_LAYOUT  3  /* data: counts, length or layout */
#define ABE_DATA_VALUE   4  /* data: a value out of -1,000,000 to 1,000,000 */
#define ABE_MALFORMED    5  /* question: records or their order, kinds, codes, argument bytes that must be 0, cut or tail;
                               of abe_chart: operation over 5 or relation over 3 */
#define ABE_COUNT        6  /* question: too many or no blocks or output columns, too many RW, CD or aggregates of a block */
#define ABE_ABSENT       7  /* question: absent table, column or parent, entry count not the table's columns, variable not
                               0 to 15, fifth level, aggregate not of a child; of abe_index: absent table or column */
#define ABE_SCOPE        8  /* question: variable in two blocks or in no RW of its block, fixed variable of no ancestor */
#define ABE_RATIO        9  /* question: sum or ave of a ratio column */
#define ABE_CONSTANT    10  /* question: constant beyond plus or minus 1,000,000,000,000,000 */
#define ABE_PLAN        11  /* plan malformed or not admitted */
#define ABE_BUDGET      12  /* trials exceed the budget; the figure of trials is the budget */
#define ABE_LARGE       13  /* an evaluated set has over 256 rows; trials in full */

/* Codes in the bytes of a question and of a plan (docs/FORMATS.md). */

/* Kinds of an element: its first byte; an 8-byte little-endian argument follows. */
#define ABE_KIND_EMPTY     0  /* argument 0; in RW */
#define ABE_KIND_CONSTANT  1  /* the number, two's complement; in RW and CD */
#define ABE_KIND_VARIABLE  2  /* its number, 0 to 15; in RW, CD and OL */
#define ABE_KIND_FIXED     3  /* the number of a variable of an ancestor, 0 to 15; in RW and CD */
#define ABE_KIND_AGGREGATE 4  /* argument byte 0 the function, byte 1 the block, byte 2 its output column; in CD and OL */

/* Operators of a condition: the byte after CD, and the operation of abe_chart. */
#define ABE_OPERATOR_EQUAL         0
#define ABE_OPERATOR_NOT_EQUAL     1
#define ABE_OPERATOR_LESS          2
#define ABE_OPERATOR_LESS_EQUAL    3
#define ABE_OPERATOR_GREATER       4
#define ABE_OPERATOR_GREATER_EQUAL 5

/* How the first of two values stands to the second: the relation of abe_chart. No byte of a question has it. */
#define ABE_RELATION_LESS    0
#define ABE_RELATION_EQUAL   1
#define ABE_RELATION_GREATER 2
#define ABE_RELATION_ABSENT  3  /* one of the two values is absent, or both */

/* Functions of an aggregate. */
#define ABE_FUNCTION_COUNT 0  /* its column is 0 */
#define ABE_FUNCTION_SUM   1
#define ABE_FUNCTION_MIN   2
#define ABE_FUNCTION_MAX   3
#define ABE_FUNCTION_AVE   4

/* Paths of a plan: the byte after PL. */
#define ABE_PATH_FILE    0  /* its column is 0 */
#define ABE_PATH_INDEX   1
#define ABE_PATH_MERGING 2

/* Least lengths of the buffers, in elements. Longer ones will do. */
#define ABE_SETS_WORDS    8192  /* int64_t: sets under way */
#define ABE_FILES_WORDS   8192  /* int64_t: aggregate files */
#define ABE_INDEXES_WORDS 1280  /* uint16_t: indexes */
#define ABE_RESULT_WORDS  2048  /* int64_t: rows given */
#define ABE_FIGURES_WORDS 4     /* uint64_t: the answer */

/* Places of the figures. Rows and columns are 0 unless the number is 0; trials are 0 under 1 to 11. */
#define ABE_NUMBER  0
#define ABE_ROWS    1
#define ABE_COLUMNS 2
#define ABE_TRIALS  3

/* The result: row r, column c of n columns stands at words 2 * (r * n + c) and the next, numerator then denominator, in
 * lowest terms with the denominator positive (1 for a whole); 0 and 0 for absent, which min, max and ave of no values are.
 * Each row stands once, and the rows ascend by exact value, first column first: of a row and the next there is a column in
 * which the first is less, and the words of the columns before it are equal. Absent is less than every other value: ask
 * for it first, since its products are 0. Of the others n/d is less than m/e where n * e < m * d; both products fit an
 * int64_t. The order is promised: whatever the plan, the budget and the buffers, one question over the same data that is
 * accepted gives the same words. */
#define ABE_NUMERATOR(r, c, n)   (2 * ((size_t)(r) * (size_t)(n) + (size_t)(c)))
#define ABE_DENOMINATOR(r, c, n) (ABE_NUMERATOR(r, c, n) + 1)
#define ABE_IS_ABSENT(num, den)  ((num) == 0 && (den) == 0)

/* Answers a question over the tables in `words` by a plan, with at most `budget` trials; returns the number, which is also
 * figures[ABE_NUMBER].
 *
 * Kept and zeroed: after every number but 1 the first ABE_SETS_WORDS, ABE_FILES_WORDS and ABE_INDEXES_WORDS elements of
 * the work buffers are zero, and after 1 they are as they were; what lies beyond these lengths is always kept. The result
 * is kept whole by every refusal, and past its rows when accepted. The first four figures are written after every number,
 * the others kept; where there are fewer than four the number is 1 and no buffer at all is changed. */
uint8_t abe_run(const int32_t *words, size_t words_len,
                const uint8_t *question, size_t question_len,
                const uint8_t *plan, size_t plan_len,
                uint64_t budget,
                int64_t *sets, size_t sets_len,
                int64_t *files, size_t files_len,
                uint16_t *indexes, size_t indexes_len,
                int64_t *result, size_t result_len,
                uint64_t *figures, size_t figures_len);

/* The index of a column: the table's row numbers by value, then row number, as many as it has rows. Returns 0, or 3, 4, 7
 * (absent table or column) or 2 (out too short), in this order. Words past the rows are kept, and all of them by a
 * refusal. */
uint8_t abe_index(const int32_t *words, size_t words_len,
                  uint32_t table, uint32_t column,
                  uint16_t *out, size_t out_len);

/* The chart of the operators: whether a condition of this operation is met by two values that stand in this relation.
 * Where one of them is absent, or both, none is met. Returns 0, or 2 (met has no byte) or 5 (operation over 5, relation
 * over 3), in this order. met[0] is 1 where the condition is met and 0 where it is not; bytes past it are kept, and all of
 * them by a refusal. */
uint8_t abe_chart(uint32_t operation, uint32_t relation,
                  uint8_t *met, size_t met_len);

#ifdef __cplusplus
}
#endif

#endif
