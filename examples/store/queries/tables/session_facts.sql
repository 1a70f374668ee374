SELECT session_id, user_id, browser, 10000 * COUNT(*) AS event_count,
  10000 * SUM(CASE WHEN event_type = 'Purchase' THEN 1 ELSE 0 END) AS purchase_count, MIN(created_at) AS started_at
FROM events
WHERE event_type IS NULL OR event_type <> 'Heartbeat'
GROUP BY session_id, user_id, browser
