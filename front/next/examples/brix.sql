-- columns: number, number, ratio/10
SELECT pans.pan, COUNT(samples.sample), SUM(samples.brix), COUNT(samples.brix)
FROM pans LEFT JOIN samples ON samples.pan = pans.pan
GROUP BY pans.pan;
