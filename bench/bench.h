/* Shared by abe.c, limit.c and lite.c: reading a job, the clock, the listing. */
#include <stdint.h>
#include <stdio.h>
#include <stdlib.h>
#include <string.h>
#include <time.h>

typedef struct { const uint8_t *at; size_t len; } part;
static part QU, PN;                      /* question and plan, as bytes */
static int32_t WORDS[16384];             /* the data */
static size_t WORD_COUNT;

typedef struct { int cols, rows; int32_t *w; } table;   /* rows one after another */
static table T[8];
static int NT;

static part part_of(const uint8_t **at, const uint8_t *end, const char *mark)
{
    uint32_t len;
    if (end - *at < 6 || memcmp(*at, mark, 2)) { fprintf(stderr, "bad job\n"); exit(1); }
    memcpy(&len, *at + 2, 4);
    if (end - *at - 6 < (long)len) { fprintf(stderr, "bad job\n"); exit(1); }
    part p = { *at + 6, len };
    *at += 6 + len;
    return p;
}

static void load(const char *path)
{
    static uint8_t buf[1 << 18];
    FILE *f = fopen(path, "rb");
    if (!f) { perror(path); exit(1); }
    size_t n = fread(buf, 1, sizeof buf, f);
    fclose(f);
    const uint8_t *at = buf;
    part da = part_of(&at, buf + n, "DA");
    QU = part_of(&at, buf + n, "QU");
    PN = part_of(&at, buf + n, "PN");
    if (da.len > sizeof WORDS || da.len < 4) { fprintf(stderr, "bad job\n"); exit(1); }
    memcpy(WORDS, da.at, da.len);
    WORD_COUNT = da.len / 4;
    NT = WORDS[0];
    int place = 1 + 2 * NT;
    for (int t = 0; t < NT; t++) {
        T[t] = (table){ WORDS[1 + 2 * t], WORDS[2 + 2 * t], WORDS + place };
        place += T[t].cols * T[t].rows;
    }
}

static inline double now_us(void)
{
    struct timespec t;
    clock_gettime(CLOCK_MONOTONIC, &t);
    return t.tv_sec * 1e6 + t.tv_nsec / 1e3;
}

static inline int64_t gcd(int64_t a, int64_t b)
{
    if (a < 0) a = -a;
    while (b) { int64_t r = a % b; a = b; b = r; }
    return a;
}

/* The workloads, and how many columns the rows of each have. */
static const struct { const char *name; int columns; } WORK[] = {
    { "w1", 2 }, { "w2", 3 }, { "w3", 2 }, { "w4", 2 }, { "w5", 2 },
    { "x1", 2 }, { "x3", 3 }, { "x5", 2 }, { "x7", 3 } };
enum { WORKS = sizeof WORK / sizeof *WORK };

static inline int work_of(const char *name)
{
    int w = 0;
    while (w < WORKS && strcmp(WORK[w].name, name)) w++;
    if (w == WORKS) { fprintf(stderr, "no workload %s\n", name); exit(2); }
    return w;
}

/* A result row: two whole columns and one ratio, or three wholes; unused are 0/1. Absent is 0/0. */
typedef struct { int64_t a, b, n, d; } row;
typedef struct { row r[256]; int len; uint64_t trials; } answer;

static inline int by_columns(const void *x, const void *y)
{
    const row *p = x, *q = y;
    if (p->a != q->a) return p->a < q->a ? -1 : 1;
    if (p->b != q->b) return p->b < q->b ? -1 : 1;
    if (!p->d || !q->d) return !!p->d - !!q->d;            /* absent first */
    __int128 l = (__int128)p->n * q->d, r = (__int128)q->n * p->d;
    return l < r ? -1 : l > r;
}

/* Print as the listing does: columns a, n/d, or a, b, n/d where there are three. */
static inline void print_answer(answer *s, int columns)
{
    qsort(s->r, s->len, sizeof(row), by_columns);
    printf("ok %d %d %llu\n", s->len, columns, (unsigned long long)s->trials);
    for (int i = 0; i < s->len; i++) {
        row *r = &s->r[i];
        printf("%lld", (long long)r->a);
        if (columns == 3) printf(" %lld", (long long)r->b);
        if (r->d == 0) printf(" -\n");
        else if (r->d == 1) printf(" %lld\n", (long long)r->n);
        else printf(" %lld/%lld\n", (long long)r->n, (long long)r->d);
    }
}

static inline int by_double(const void *x, const void *y)
{
    double a = *(const double *)x, b = *(const double *)y;
    return a < b ? -1 : a > b;
}

/* Repeat for about `seconds`, at least twice, one clock reading on each side of a call.
 * Prints: engine, work, variant, least us, median us, and the rows and trials of the
 * last call (trials 0 where the engine counts none). */
#define TIME(engine, work, variant, seconds, CALL, ROWS, TRIALS_) do {        \
    static double ts[100000]; int k = 0; double t0 = now_us();                \
    do { double t = now_us(); CALL; ts[k++] = now_us() - t; }                 \
    while (k < 100000 && (k < 2 || now_us() - t0 < (seconds) * 1e6));         \
    qsort(ts, k, sizeof *ts, by_double);                                      \
    printf("%s\t%s\t%s\t%.3f\t%.3f\t%llu\t%llu\n", engine, work, variant, ts[0], ts[k / 2], \
           (unsigned long long)(ROWS), (unsigned long long)(TRIALS_));        \
} while (0)
