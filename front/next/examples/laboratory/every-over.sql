-- columns: text, text, number/10, number/100
SELECT t.tank, t.place, t."limit", MIN(s."Brüx")
FROM Tanks t JOIN "lab-2024" s ON s.tank = t.tank
GROUP BY t.tank, t.place, t."limit"
HAVING SUM(s."Brüx" <= t."limit" * 10) = 0;
