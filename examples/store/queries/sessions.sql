SELECT browser, COUNT(*), fraction(SUM(CASE WHEN event_count = 10000 THEN 1 ELSE 0 END), COUNT(*)), fraction(SUM(event_count), 10000 * COUNT(event_count)),
  SUM(CASE WHEN purchase_count > 0 THEN 1 ELSE 0 END)
FROM session_facts GROUP BY browser ORDER BY browser
