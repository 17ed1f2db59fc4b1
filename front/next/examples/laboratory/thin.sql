-- columns: number, number/100
SELECT "Sample No", "Brüx" FROM "lab-2024" WHERE "Brüx" < 8000;
