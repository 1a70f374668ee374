WITH rows AS (SELECT i.id AS item, i.sale_price, o.id, o.shipping_cost, substr(o.created_at, 1, 7) AS month
  FROM order_items i LEFT JOIN orders o ON i.order_id = o.id WHERE o.status <> 'Test' AND o.created_at >= '2024-04-01'),
  shipping AS (SELECT month, SUM(shipping_cost) AS total FROM (SELECT DISTINCT month, id, shipping_cost FROM rows) GROUP BY month)
SELECT month, COUNT(DISTINCT id), COUNT(*), number(SUM(sale_price)), number(COALESCE((SELECT total FROM shipping s WHERE s.month = rows.month), 0))
FROM rows GROUP BY month ORDER BY month
