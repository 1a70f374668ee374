SELECT number(u.id), u.first_name || ' ' || u.last_name, number(SUM(i.sale_price)) FROM users u JOIN orders o ON o.user_id = u.id JOIN order_items i ON i.order_id = o.id
GROUP BY u.id HAVING SUM(i.sale_price) >= 3000000 ORDER BY SUM(i.sale_price) DESC, u.id
