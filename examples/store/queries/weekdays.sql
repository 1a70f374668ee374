SELECT CASE strftime('%w', o.created_at) WHEN '0' THEN 'Sunday' WHEN '1' THEN 'Monday' WHEN '2' THEN 'Tuesday' WHEN '3' THEN 'Wednesday'
    WHEN '4' THEN 'Thursday' WHEN '5' THEN 'Friday' WHEN '6' THEN 'Saturday' END AS weekday,
  COUNT(DISTINCT o.id), COUNT(DISTINCT CASE WHEN o.status IN ('Processing', 'Shipped') THEN o.id END)
FROM users u LEFT JOIN orders o ON o.user_id = u.id WHERE o.status IS NULL OR o.status NOT IN ('Test', 'Cancelled') GROUP BY weekday ORDER BY weekday
