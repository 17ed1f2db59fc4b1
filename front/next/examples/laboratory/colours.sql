-- columns: text, number, ratio/100
WITH means AS (
  SELECT t.tank, t.colour, SUM(s."Brüx") AS total, COUNT(s."Brüx") AS samples
  FROM Tanks t LEFT JOIN (SELECT DISTINCT "Sample No", tank, "Brüx" FROM "lab-2024") s ON s.tank = t.tank
  GROUP BY t.tank, t.colour)
SELECT m.colour, (SELECT COUNT(*) FROM Tanks WHERE colour = m.colour), m.total, m.samples
FROM means m
WHERE NOT EXISTS (
  SELECT * FROM means other
  WHERE other.colour = m.colour
    AND (other.total * m.samples > m.total * other.samples OR (m.samples = 0 AND other.samples > 0)));
