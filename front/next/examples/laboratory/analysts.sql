-- columns: text, number, number
SELECT analyst, COUNT(DISTINCT "Sample No"), COUNT(DISTINCT tank)
FROM "lab-2024"
WHERE analyst < 'M'
GROUP BY analyst;
