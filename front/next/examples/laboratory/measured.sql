-- columns: text, number, number
SELECT t.tank,
  (SELECT COUNT(DISTINCT "Sample No") FROM drawn WHERE drawn.tank = t.tank),
  (SELECT COUNT(DISTINCT "Sample No") FROM tested WHERE tested.tank = t.tank AND pH IS NOT NULL)
FROM Tanks t
WHERE EXISTS (SELECT * FROM drawn WHERE drawn.tank = t.tank AND drawn.pH IS NULL);
