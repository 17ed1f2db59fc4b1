-- columns: text, number
WITH hired AS (
  SELECT d.division, d.dname, COALESCE(SUM(e.salary), 0) AS salaries
  FROM department d
    JOIN employee boss ON boss.ename = d.manager
    JOIN division v ON v.dvname = d.division
    LEFT JOIN employee e ON e.dept = d.dname AND e.recruiter = v.manager
  WHERE boss.seniority > 10
  GROUP BY d.division, d.dname)
SELECT v.dvname, MAX(hired.salaries)
FROM division v LEFT JOIN hired ON hired.division = v.dvname
WHERE v.budget > 500000
GROUP BY v.dvname;
