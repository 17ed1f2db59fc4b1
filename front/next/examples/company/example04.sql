-- columns: text
SELECT e.ename
FROM employee e
WHERE e.salary > (SELECT MAX(senior.salary) FROM employee senior WHERE senior.seniority > e.seniority);
