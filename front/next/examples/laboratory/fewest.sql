-- columns: text, number
WITH drawn AS (
  SELECT t.tank, COUNT(DISTINCT s."Sample No") AS samples
  FROM Tanks t JOIN "lab-2024" s ON s.tank = t.tank
  GROUP BY t.tank)
SELECT tank, samples FROM drawn WHERE samples = (SELECT MIN(samples) FROM drawn);
