-- columns: number, number, number
SELECT s."Sample No", s."count", s.budget FROM "lab-2024" s WHERE s."count" <> s.budget;
