-- columns: text, number
SELECT d.dname, SUM(e.salary)
FROM department d JOIN employee e ON e.dept = d.dname
GROUP BY d.dname
HAVING COUNT(*) >= 3;
