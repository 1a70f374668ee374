SELECT substr(o.created_at, 1, 4) || '-Q' || ((CAST(substr(o.created_at, 6, 2) AS INTEGER) + 2) / 3) AS quarter, COUNT(i.returned_on),
  number(SUM(CASE WHEN i.returned_on IS NOT NULL THEN i.sale_price ELSE 0 END)), fraction(COUNT(i.returned_on), COUNT(*))
FROM order_items i LEFT JOIN orders o ON i.order_id = o.id LEFT JOIN users u ON o.user_id = u.id
  LEFT JOIN inventory_items v ON i.inventory_item_id = v.id LEFT JOIN products p ON v.product_id = p.id
WHERE o.status <> 'Test' AND o.created_at BETWEEN '2024-01-01' AND '2024-12-31 23:59:59'
GROUP BY quarter ORDER BY quarter
