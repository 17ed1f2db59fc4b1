-- columns: text, number, number/100, ratio/100
SELECT method, COUNT(*), MAX(purity), SUM(purity), COUNT(purity) FROM purity GROUP BY method;
