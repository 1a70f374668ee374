SELECT p.department, CASE WHEN p.retail_price >= 1000000 THEN 'Yes' ELSE 'No' END AS premium, COUNT(DISTINCT p.id), COUNT(v.id),
  fraction(COUNT(v.sold_at), COUNT(v.id)), number(SUM(CASE WHEN v.id IS NOT NULL AND v.sold_at IS NULL THEN v.cost ELSE 0 END))
FROM products p LEFT JOIN inventory_items v ON v.product_id = p.id GROUP BY p.department, premium ORDER BY p.department, premium
