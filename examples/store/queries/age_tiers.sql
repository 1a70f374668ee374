SELECT CASE WHEN u.age IS NULL THEN 'Undefined' WHEN u.age < 180000 THEN 'Below 18' WHEN u.age < 260000 THEN '18 to 25' WHEN u.age < 360000 THEN '26 to 35'
    WHEN u.age < 510000 THEN '36 to 50' WHEN u.age < 660000 THEN '51 to 65' ELSE '66 or Above' END AS tier,
  COUNT(DISTINCT u.id), COUNT(DISTINCT o.id), COUNT(DISTINCT o.user_id)
FROM users u LEFT JOIN orders o ON o.user_id = u.id GROUP BY tier ORDER BY MIN(u.age)
