-- columns: text, number, ratio/100
SELECT t.tank, COUNT(s."Sample No"), SUM(s.pH), COUNT(s.pH)
FROM Tanks t
  LEFT JOIN (SELECT DISTINCT "Sample No", tank, pH FROM "lab-2024" WHERE pH IS NOT NULL) s ON s.tank = t.tank
GROUP BY t.tank;
