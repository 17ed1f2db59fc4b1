-- columns: ratio
SELECT SUM(salary), COUNT(salary) FROM employee;
