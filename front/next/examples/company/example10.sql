-- columns: text
SELECT manager
FROM department
WHERE dname NOT IN (SELECT dname FROM sells NATURAL JOIN item WHERE color = 'red');
