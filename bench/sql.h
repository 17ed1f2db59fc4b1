/* The questions in SQL, for lite.c, in the order of WORK.  Tables are t0.. with columns c0..
 *
 *   one    as the engine has it: relation rows joined in their order, a child block as a
 *          correlated subquery, evaluated once per row; where both its sum and its count are
 *          wanted they leave as sum * 1024 + count, both exact
 *   two    sum and count as two correlated subqueries, as one would type it
 *   group  no correlation: groups joined from the outside, so that pans without
 *          samples stay, the SQL counterpart of the merging scan; tables joined in any
 *          order, and one of which nothing is given only asked whether it has a row
 */
static const char *const SQL[WORKS][3] = {
{ /* W1 */
  "SELECT DISTINCT p.c0, (SELECT COALESCE(SUM(s.c2),0)*1024+COUNT(*) FROM"
  " (SELECT DISTINCT c0, c2 FROM t1 WHERE t1.c1 = p.c0) s) FROM t0 p",
  "SELECT DISTINCT p.c0, (SELECT COALESCE(SUM(s.c2),0) FROM"
  " (SELECT DISTINCT c0, c2 FROM t1 WHERE t1.c1 = p.c0) s),"
  " (SELECT COUNT(*) FROM (SELECT DISTINCT c0, c2 FROM t1 WHERE t1.c1 = p.c0) s) FROM t0 p",
  "SELECT DISTINCT p.c0, COALESCE(g.s,0), COALESCE(g.n,0) FROM t0 p LEFT JOIN"
  " (SELECT c1, SUM(c2) AS s, COUNT(*) AS n FROM (SELECT DISTINCT c0, c1, c2 FROM t1) d"
  "  GROUP BY c1) g ON g.c1 = p.c0" },
{ /* W2 */
  "SELECT DISTINCT t0.c1, t1.c1, (SELECT COUNT(*) FROM"
  " (SELECT DISTINCT c1 FROM t3 WHERE t3.c0 = t2.c1) s)"
  " FROM t0 CROSS JOIN t1 CROSS JOIN t2 WHERE t0.c1 = t1.c0 AND t1.c1 = t2.c0",
  NULL,
  "SELECT DISTINCT t0.c1, t1.c1, COALESCE(g.n,0) FROM t0 JOIN t1 ON t0.c1 = t1.c0"
  " JOIN t2 ON t1.c1 = t2.c0 LEFT JOIN"
  " (SELECT c0, COUNT(*) AS n FROM (SELECT DISTINCT c0, c1 FROM t3) d GROUP BY c0) g"
  " ON g.c0 = t2.c1" },
{ /* W3 */
  "SELECT DISTINCT v.c0, (SELECT COALESCE(SUM(s.sm),0)*1024+COUNT(*) FROM"
  " (SELECT DISTINCT d.c0, (SELECT COALESCE(SUM(e.c1),0) FROM"
  "   (SELECT DISTINCT c0, c1 FROM t2 WHERE t2.c2 = d.c0) e) AS sm"
  "  FROM t1 d WHERE d.c1 = v.c0) s) FROM t0 v",
  "SELECT DISTINCT v.c0, (SELECT COALESCE(SUM(s.sm),0) FROM"
  " (SELECT DISTINCT d.c0, (SELECT COALESCE(SUM(e.c1),0) FROM"
  "   (SELECT DISTINCT c0, c1 FROM t2 WHERE t2.c2 = d.c0) e) AS sm"
  "  FROM t1 d WHERE d.c1 = v.c0) s), (SELECT COUNT(*) FROM"
  " (SELECT DISTINCT d.c0, (SELECT COALESCE(SUM(e.c1),0) FROM"
  "   (SELECT DISTINCT c0, c1 FROM t2 WHERE t2.c2 = d.c0) e) AS sm"
  "  FROM t1 d WHERE d.c1 = v.c0) s) FROM t0 v",
  "SELECT DISTINCT v.c0, COALESCE(g.s,0), COALESCE(g.n,0) FROM t0 v LEFT JOIN"
  " (SELECT dv, SUM(sm) AS s, COUNT(*) AS n FROM"
  "   (SELECT DISTINCT d.c1 AS dv, d.c0 AS dp, COALESCE(e.sm,0) AS sm FROM t1 d LEFT JOIN"
  "     (SELECT c2, SUM(c1) AS sm FROM (SELECT DISTINCT c0, c1, c2 FROM t2) x GROUP BY c2) e"
  "    ON e.c2 = d.c0) y GROUP BY dv) g ON g.dv = v.c0" },
{ /* W4 */
  "SELECT DISTINCT a.c0, a.c1 FROM t0 a CROSS JOIN t1 b CROSS JOIN t2 c"
  " WHERE a.c0 = b.c0 AND b.c0 = c.c0 AND a.c1 < c.c1",
  NULL,
  "SELECT DISTINCT a.c0, a.c1 FROM t0 a JOIN t2 c ON c.c0 = a.c0"
  " WHERE a.c1 < c.c1 AND a.c0 IN (SELECT c0 FROM t1)" },
{ /* W5 */
  "SELECT DISTINCT p.c0, (SELECT COALESCE(SUM(t),0) FROM"
  " (SELECT DISTINCT q.c0, (SELECT COALESCE(SUM(t),0) FROM"
  "   (SELECT DISTINCT s.c0, (SELECT COALESCE(SUM(u.c2),0) FROM"
  "     (SELECT DISTINCT c0, c2 FROM t3 WHERE t3.c1 = s.c0) u) AS t"
  "    FROM t2 s WHERE s.c1 = q.c0)) AS t"
  "  FROM t1 q WHERE q.c1 = p.c0)) FROM t0 p",
  NULL,
  "SELECT DISTINCT p.c0, COALESCE(y.t,0) FROM t0 p LEFT JOIN"
  " (SELECT k, SUM(t) AS t FROM"
  "   (SELECT DISTINCT q.c1 AS k, q.c0, COALESCE(x.t,0) AS t FROM t1 q LEFT JOIN"
  "     (SELECT k, SUM(t) AS t FROM"
  "       (SELECT DISTINCT s.c1 AS k, s.c0, COALESCE(u.t,0) AS t FROM t2 s LEFT JOIN"
  "         (SELECT c1 AS k, SUM(c2) AS t FROM (SELECT DISTINCT c0, c1, c2 FROM t3) GROUP BY c1) u"
  "        ON u.k = s.c0) GROUP BY k) x"
  "    ON x.k = q.c0) GROUP BY k) y ON y.k = p.c0" },
{ /* X1 */
  "SELECT DISTINCT a.c0, c.c1 FROM t0 a CROSS JOIN t1 b CROSS JOIN t2 c"
  " WHERE a.c0 = c.c0 AND a.c1 < c.c1",
  NULL,
  "SELECT DISTINCT a.c0, c.c1 FROM t0 a JOIN t2 c ON c.c0 = a.c0"
  " WHERE a.c1 < c.c1 AND EXISTS (SELECT 1 FROM t1)" },
{ /* X3 */
  "SELECT DISTINCT a.c0, (SELECT COALESCE(SUM(c1),0)*1024+COUNT(*) FROM"
  " (SELECT DISTINCT c1 FROM t2 WHERE t2.c0 = a.c0))"
  " FROM t0 a CROSS JOIN t1 b WHERE b.c0 = a.c0 AND a.c1 < b.c1",
  NULL,
  "SELECT DISTINCT a.c0, COALESCE(g.s,0), COALESCE(g.n,0) FROM t0 a JOIN t1 b ON b.c0 = a.c0"
  " LEFT JOIN (SELECT c0, SUM(c1) AS s, COUNT(*) AS n FROM (SELECT DISTINCT c0, c1 FROM t2)"
  "  GROUP BY c0) g ON g.c0 = a.c0 WHERE a.c1 < b.c1" },
{ /* X5 */
  "SELECT DISTINCT a.c1, a.c0 FROM t0 a CROSS JOIN t1 b WHERE b.c0 = a.c0 AND b.c1 > 800",
  NULL,
  "SELECT DISTINCT c1, c0 FROM t0 WHERE c0 IN (SELECT c0 FROM t1 WHERE c1 > 800)" },
{ /* X7 */
  "WITH r AS MATERIALIZED (SELECT c.c1 AS z, b.c1 AS m,"
  "  (SELECT COALESCE(SUM(c1),0)*1024+COUNT(*) FROM"
  "   (SELECT DISTINCT c1 FROM t3 WHERE t3.c0 = c.c1 AND t3.c1 > 10)) AS g"
  "  FROM t0 a CROSS JOIN t1 b CROSS JOIN t2 c"
  "  WHERE b.c0 = a.c0 AND c.c0 = b.c1 AND a.c1 < 64 AND b.c1 <> c.c1)"
  " SELECT DISTINCT z, m, g FROM r WHERE g >= 101*1024",
  NULL,
  "SELECT DISTINCT c.c1, b.c1, g.s, g.n FROM t0 a JOIN t1 b ON b.c0 = a.c0"
  " JOIN t2 c ON c.c0 = b.c1 JOIN"
  " (SELECT c0, SUM(c1) AS s, COUNT(*) AS n FROM (SELECT DISTINCT c0, c1 FROM t3 WHERE c1 > 10)"
  "  GROUP BY c0 HAVING SUM(c1) > 100) g ON g.c0 = c.c1 WHERE a.c1 < 64 AND b.c1 <> c.c1" } };

static const char *const INDEX_SQL[WORKS] = {
  "CREATE INDEX i1 ON t1(c1)",
  "CREATE INDEX i3 ON t3(c0)",
  "CREATE INDEX i1 ON t1(c1); CREATE INDEX i2 ON t2(c2)",
  "CREATE INDEX i1 ON t1(c0); CREATE INDEX i2 ON t2(c0)",
  "CREATE INDEX i1 ON t1(c1); CREATE INDEX i2 ON t2(c1); CREATE INDEX i3 ON t3(c1)",
  "CREATE INDEX i2 ON t2(c0)",
  "CREATE INDEX i1 ON t1(c0); CREATE INDEX i2 ON t2(c0)",
  "CREATE INDEX i1 ON t1(c0)",
  "CREATE INDEX i1 ON t1(c0); CREATE INDEX i2 ON t2(c0); CREATE INDEX i3 ON t3(c0)" };

/* Variants: name, form of the question, with an index, planner left free. */
static const struct { const char *name; int form, index, freely; } VARIANT[] = {
  { "scan", 0, 0, 0 }, { "scan2", 1, 0, 0 }, { "free", 0, 0, 1 },
  { "index", 0, 1, 1 }, { "group", 2, 0, 1 }, { "both", 2, 1, 1 } };
enum { VARIANTS = sizeof VARIANT / sizeof *VARIANT };

/* What a row has last: a whole, an average, or a count and a sum.  The last two are read as
 * sum * 1024 + count in one column, or as sum and count in two. */
enum { WHOLE, AVERAGE, COUNT_SUM };
static const int LAST[WORKS] = { AVERAGE, WHOLE, AVERAGE, WHOLE, WHOLE, WHOLE, COUNT_SUM, WHOLE, AVERAGE };

/* One row as the engine would give it; v has the columns read. */
static row row_of(int work, int form, const int64_t *v)
{
    int last = WORK[work].columns - (LAST[work] == COUNT_SUM ? 2 : 1);
    int64_t n = v[last], d = 1, second = last == 2 ? v[1] : 0;
    if (LAST[work] != WHOLE) {
        d = form == 0 ? n & 1023 : v[last + 1];
        if (form == 0) n = (n - d) / 1024;
    }
    if (LAST[work] == COUNT_SUM) return (row){ v[0], d, n, 1 };
    if (d == 0) return (row){ v[0], second, 0, 0 };
    int64_t g = gcd(n, d);
    return (row){ v[0], second, n / g, d / g };
}
