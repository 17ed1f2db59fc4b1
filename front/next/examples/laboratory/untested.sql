-- columns: number, text
SELECT s."Sample No", s.tank
FROM "lab-2024" s LEFT JOIN purity p ON p.sample = s."Sample No" AND p.method <> 'near infrared'
WHERE s."Brüx" > 9100 AND p.sample IS NULL;
