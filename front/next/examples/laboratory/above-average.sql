-- columns: number, text, number/100, ratio/100
WITH drawn AS (SELECT DISTINCT "Sample No", tank, "Brüx" FROM "lab-2024")
SELECT s."Sample No", s.tank, s."Brüx", a.total, a.samples
FROM drawn s
  JOIN (SELECT tank, SUM("Brüx") AS total, COUNT(*) AS samples FROM drawn GROUP BY tank) a ON a.tank = s.tank
WHERE s."Brüx" * a.samples > a.total;
