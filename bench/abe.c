/* The engine, called as C calls it (crate capi), every call inside one process.
 *
 *   abe JOB                       one call; print the listing
 *   abe JOB WORK PLAN SECONDS     time abe_run; WORK and PLAN are only names here
 *
 * A timed call is the whole of abe_run: the checks of data, question and plan, the
 * indexes and aggregate files, the evaluation, the rows put out and the work buffers
 * zeroed.  Reading the job file and starting the process are outside. */
#include "bench.h"

#include "../include/abe.h"

static int64_t sets[ABE_SETS_WORDS], files[ABE_FILES_WORDS], result[ABE_RESULT_WORDS];
static uint16_t indexes[ABE_INDEXES_WORDS];
static uint64_t figures[ABE_FIGURES_WORDS];

static void run(void)
{
    uint8_t number = abe_run(WORDS, WORD_COUNT, QU.at, QU.len, PN.at, PN.len, 1000000000,
                             sets, ABE_SETS_WORDS, files, ABE_FILES_WORDS, indexes, ABE_INDEXES_WORDS,
                             result, ABE_RESULT_WORDS, figures, ABE_FIGURES_WORDS);
    if (number) { printf("no %d\n", number); exit(1); }
}

static void print_rows(void)
{
    const uint64_t rows = figures[ABE_ROWS], columns = figures[ABE_COLUMNS];
    printf("ok %llu %llu %llu\n", (unsigned long long)rows, (unsigned long long)columns,
           (unsigned long long)figures[ABE_TRIALS]);
    for (uint64_t r = 0; r < rows; r++)
        for (uint64_t c = 0; c < columns; c++) {
            const int64_t *v = result + ABE_NUMERATOR(r, c, columns);
            if (ABE_IS_ABSENT(v[0], v[1])) printf("-");
            else printf("%lld", (long long)v[0]);
            if (v[1] > 1) printf("/%lld", (long long)v[1]);
            putchar(c + 1 < columns ? ' ' : '\n');
        }
}

int main(int argc, char **argv)
{
    if (argc != 2 && argc != 5) return 2;
    load(argv[1]);
    if (argc == 2) { run(); print_rows(); }
    else TIME("abe", argv[2], argv[3], atof(argv[4]), run(), figures[ABE_ROWS], figures[ABE_TRIALS]);
    return 0;
}
