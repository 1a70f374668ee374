connection: "shop"
include: "/views/*.view.lkml"
persist_with: nightly
explore: orders {
  access_filter: { field: users.region user_attribute: region }
  join: users { relationship: many_to_one sql_on: ${orders.user_id} = ${users.id} ;; }
  join: items { relationship: one_to_many sql_on: ${items.order_id} = ${orders.id} ;; }
}
