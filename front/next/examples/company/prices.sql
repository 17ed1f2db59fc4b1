-- columns: text, number, ratio/100, number/100
SELECT d.dname, COUNT(i.iname), SUM(i.price), COUNT(i.price), MAX(i.price)
FROM department d
  LEFT JOIN sells s ON s.dname = d.dname
  LEFT JOIN item i ON i.iname = s.iname AND i.price >= 425
GROUP BY d.dname;
