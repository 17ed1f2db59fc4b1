-- columns: number/100, number, text
SELECT "Brüx", "Sample No", tank FROM samples WHERE "Brüx" > 9150;
