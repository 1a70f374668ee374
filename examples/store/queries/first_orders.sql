SELECT substr(f.first_order_at, 1, 4) || '-Q' || ((substr(f.first_order_at, 6, 2) + 2) / 3) AS quarter, COUNT(f.user_id),
  fraction(SUM(CASE WHEN f.lifetime_orders > 10000 THEN 1 ELSE 0 END), COUNT(f.user_id)), fraction(SUM(f.lifetime_revenue), 10000 * COUNT(f.lifetime_revenue)), COUNT(*)
FROM users u LEFT JOIN customer_facts f ON u.id = f.user_id
GROUP BY quarter ORDER BY quarter
