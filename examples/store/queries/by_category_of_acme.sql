SELECT p.category, COUNT(*), number(SUM(i.sale_price)), fraction(SUM(i.sale_price), 10000 * COUNT(i.sale_price))
FROM order_items i LEFT JOIN orders o ON i.order_id = o.id LEFT JOIN users u ON o.user_id = u.id
  LEFT JOIN inventory_items v ON i.inventory_item_id = v.id LEFT JOIN products p ON v.product_id = p.id
WHERE o.status <> 'Test' AND p.brand = 'Acme'
GROUP BY p.category ORDER BY SUM(i.sale_price) DESC, p.category
