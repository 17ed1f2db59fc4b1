-- columns: text
SELECT d.manager
FROM department d
  JOIN sells s ON s.dname = d.dname
  JOIN item i ON i.iname = s.iname
WHERE i.color = 'red'
GROUP BY d.dname, d.manager
HAVING COUNT(DISTINCT i.iname) = (SELECT COUNT(*) FROM item WHERE color = 'red');
