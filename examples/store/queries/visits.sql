SELECT browser, COUNT(DISTINCT session_id), SUM(event_type = 'Purchase'), fraction(SUM(event_type = 'Purchase'), COUNT(DISTINCT session_id)), number(MAX(sequence_number))
FROM events WHERE event_type IS NULL OR event_type <> 'Heartbeat' GROUP BY browser ORDER BY browser
