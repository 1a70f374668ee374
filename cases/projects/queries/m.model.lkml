include: "*.view"

# The caller's orders are those of the caller's region. Orders without items are left out where items are joined.
explore: orders {
  access_filter: { field: users.region user_attribute: region }
  join: users { sql_on: ${orders.user_id} = ${users.id} ;; }
  join: items { type: inner relationship: one_to_many sql_on: ${items.order_id} = ${orders.id} ;; }
}

# Open orders of the past, unless a query says otherwise.
explore: past_orders {
  from: orders
  always_filter: { filters: [created_date: "2000 years", status: "open"] }
}
