-- columns: text, number
SELECT d.dname, COUNT(e.ename)
FROM department d LEFT JOIN employee e ON e.dept = d.dname
GROUP BY d.dname;
