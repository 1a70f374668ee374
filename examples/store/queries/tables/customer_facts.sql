SELECT o.user_id, 10000 * COUNT(DISTINCT o.id) AS lifetime_orders, COALESCE(SUM(i.sale_price), 0) AS lifetime_revenue,
  rounded(SUM(i.sale_price), COUNT(i.sale_price)) AS average_item_price, MIN(o.created_at) AS first_order_at, MAX(o.created_at) AS latest_order_at
FROM order_items i LEFT JOIN orders o ON i.order_id = o.id
WHERE o.status <> 'Test' AND o.status <> 'Cancelled'
GROUP BY o.user_id
