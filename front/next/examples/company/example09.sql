-- columns: text
SELECT d.manager
FROM department d
WHERE NOT EXISTS (
  SELECT * FROM sells s JOIN item i ON i.iname = s.iname
  WHERE s.dname = d.dname AND i.color <> 'red');
