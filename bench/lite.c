/* The questions in SQLite, in memory, one prepared statement.
 *   lite JOB WORK VARIANT [SECONDS]      variants are in sql.h
 * 'scan' forbids SQLite the index it would build for itself during the query.  Tables,
 * statement and, under 'index', the index are made once, outside the time. */
#include "bench.h"
#include "sql.h"
#include <sqlite3.h>

static sqlite3 *db;
static answer A;

static void sql(const char *s)
{
    char *e = NULL;
    if (sqlite3_exec(db, s, 0, 0, &e)) { fprintf(stderr, "%s: %s\n", s, e); exit(1); }
}

static void fill(void)
{
    char s[512];
    sql("BEGIN");
    for (int t = 0; t < NT; t++) {
        int n = sprintf(s, "CREATE TABLE t%d(c0 INTEGER", t);
        for (int c = 1; c < T[t].cols; c++) n += sprintf(s + n, ", c%d INTEGER", c);
        sprintf(s + n, ")");
        sql(s);
        for (int r = 0; r < T[t].rows; r++) {
            n = sprintf(s, "INSERT INTO t%d VALUES(%d", t, T[t].w[r * T[t].cols]);
            for (int c = 1; c < T[t].cols; c++) n += sprintf(s + n, ",%d", T[t].w[r * T[t].cols + c]);
            sprintf(s + n, ")");
            sql(s);
        }
    }
    sql("COMMIT");
}

static void ask(sqlite3_stmt *q, int work, int form)
{
    A.len = 0;
    while (sqlite3_step(q) == SQLITE_ROW) {
        int64_t v[4];
        for (int c = 0; c < sqlite3_column_count(q); c++) v[c] = sqlite3_column_int64(q, c);
        A.r[A.len++] = row_of(work, form, v);
    }
    sqlite3_reset(q);
}

int main(int argc, char **argv)
{
    if (argc < 4) return 2;
    load(argv[1]);
    int work = work_of(argv[2]), v = 0;
    while (v < VARIANTS && strcmp(VARIANT[v].name, argv[3])) v++;
    if (v == VARIANTS) return 2;
    const char *text = SQL[work][VARIANT[v].form];
    if (!text) return 3;
    sqlite3_open(":memory:", &db);
    fill();
    sql(VARIANT[v].freely ? "PRAGMA automatic_index=ON" : "PRAGMA automatic_index=OFF");
    if (VARIANT[v].index) sql(INDEX_SQL[work]);
    sql("ANALYZE");
    sqlite3_stmt *q;
    if (sqlite3_prepare_v2(db, text, -1, &q, 0)) { fprintf(stderr, "%s\n", sqlite3_errmsg(db)); return 1; }
    if (argc == 4) { ask(q, work, VARIANT[v].form); print_answer(&A, WORK[work].columns); }
    else TIME("sqlite", WORK[work].name, VARIANT[v].name, atof(argv[4]), ask(q, work, VARIANT[v].form), A.len, 0);
    return 0;
}
