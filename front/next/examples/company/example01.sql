-- columns: text
SELECT e.ename
FROM employee e JOIN department d ON d.dname = e.dept
WHERE d.division = 'research';
