connection: "shop"
include: "/views/*.view.lkml"

# what triggers by itself, and what never does
datagroup: nightly { sql_trigger: SELECT MAX(id) FROM orders ;; max_cache_age: "24 hours" }
datagroup: stocked { sql_trigger: SELECT COUNT(*) FROM items ;; }
datagroup: once { max_cache_age: "24 hours" }

explore: orders {
  access_filter: { field: users.region user_attribute: region }
  join: users { relationship: many_to_one sql_on: ${orders.user_id} = ${users.id} ;; }
  join: items { relationship: one_to_many sql_on: ${items.order_id} = ${orders.id} ;; }
}

# orders of known users, and of these the complete ones unless a query says otherwise
explore: sales {
  from: orders
  access_filter: { field: users.region user_attribute: region }
  always_filter: { filters: [sales.status: "complete"] }
  sql_always_where: ${sales.user_id} IS NOT NULL ;;
  join: users { relationship: many_to_one sql_on: ${sales.user_id} = ${users.id} ;; }
}
