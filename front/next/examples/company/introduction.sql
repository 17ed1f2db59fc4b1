-- columns: text, number, ratio
WITH old AS (
  SELECT d.division, d.dname, SUM(CASE WHEN e.seniority > 4 THEN e.salary END) AS salaries
  FROM department d JOIN employee e ON e.dept = d.dname
  GROUP BY d.division, d.dname
  HAVING SUM(e.seniority > 4) > SUM(e.seniority <= 4))
SELECT v.dvname, COUNT(old.dname), SUM(old.salaries), COUNT(old.dname)
FROM division v LEFT JOIN old ON old.division = v.dvname
WHERE v.budget > 500000
GROUP BY v.dvname;
