-- columns: text, ratio
WITH paid AS (
  SELECT d.dname, d.division, COALESCE(SUM(e.salary), 0) AS salaries
  FROM department d LEFT JOIN employee e ON e.dept = d.dname
  GROUP BY d.dname, d.division)
SELECT v.dvname, SUM(paid.salaries), COUNT(paid.dname)
FROM division v LEFT JOIN paid ON paid.division = v.dvname
GROUP BY v.dvname;
