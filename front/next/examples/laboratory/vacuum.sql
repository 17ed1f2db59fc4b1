-- columns: number, number/1000, number/1000
SELECT pan, MIN(vacuum), MAX(vacuum) FROM "Pan log" GROUP BY pan;
