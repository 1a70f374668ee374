SELECT CASE WHEN u.country IN ('Norway', 'Sweden', 'Finland') THEN 'North' WHEN u.country IN ('Spain', 'Italy') THEN 'South' END AS region,
  substr(o.created_at, 1, 4) || '-Q' || ((substr(o.created_at, 6, 2) + 2) / 3) AS quarter, COUNT(*), number(SUM(i.sale_price))
FROM order_items i LEFT JOIN orders o ON i.order_id = o.id LEFT JOIN users u ON o.user_id = u.id
  LEFT JOIN inventory_items v ON i.inventory_item_id = v.id LEFT JOIN products p ON v.product_id = p.id
WHERE o.status <> 'Test' AND o.created_at LIKE '2024-%'
GROUP BY region, quarter ORDER BY region, quarter
