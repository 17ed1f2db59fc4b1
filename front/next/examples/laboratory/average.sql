-- columns: text, number, ratio/100
SELECT t.tank, COUNT(s."Sample No"), SUM(s."Brüx"), COUNT(s."Brüx")
FROM Tanks t LEFT JOIN (SELECT DISTINCT * FROM "lab-2024") s ON s.tank = t.tank
GROUP BY t.tank;
