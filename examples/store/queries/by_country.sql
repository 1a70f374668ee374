WITH ages AS (SELECT country, COUNT(*) AS users, SUM(age) AS age, COUNT(age) AS known FROM users GROUP BY country),
  shipping AS (SELECT u.country, COUNT(*) AS orders, SUM(o.shipping_cost) AS cost FROM orders o JOIN users u ON o.user_id = u.id GROUP BY u.country),
  sales AS (SELECT u.country, SUM(i.sale_price) AS total FROM order_items i JOIN orders o ON i.order_id = o.id JOIN users u ON o.user_id = u.id GROUP BY u.country)
SELECT a.country, a.users, fraction(a.age, 10000 * a.known), COALESCE(s.orders, 0), number(COALESCE(s.cost, 0)), number(COALESCE(t.total, 0))
FROM ages a LEFT JOIN shipping s ON s.country IS a.country LEFT JOIN sales t ON t.country IS a.country ORDER BY a.country
