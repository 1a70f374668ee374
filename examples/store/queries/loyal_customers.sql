SELECT number(u.id), u.first_name || ' ' || u.last_name, number(f.lifetime_orders), number(f.lifetime_revenue), number(f.average_item_price)
FROM users u LEFT JOIN customer_facts f ON u.id = f.user_id
WHERE f.lifetime_orders > 10000
ORDER BY f.lifetime_revenue DESC, u.id
