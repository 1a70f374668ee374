explore: users {
  label: "Customers"

  join: customer_facts {
    relationship: one_to_one
    sql_on: ${users.id} = ${customer_facts.user_id} ;;
  }

  join: orders {
    relationship: one_to_many
    sql_on: ${orders.user_id} = ${users.id} ;;
  }

  join: order_items {
    relationship: one_to_many
    sql_on: ${order_items.order_id} = ${orders.id} ;;
  }

  join: inventory_items {
    relationship: one_to_one
    sql_on: ${order_items.inventory_item_id} = ${inventory_items.id} ;;
  }

  join: products {
    relationship: many_to_one
    sql_on: ${inventory_items.product_id} = ${products.id} ;;
  }
}

explore: events {
  label: "Visits"
  always_filter: { filters: [events.event_type: "-Heartbeat"] }

  join: users {
    relationship: many_to_one
    sql_on: ${events.user_id} = ${users.id} ;;
  }
}

explore: session_facts {
  label: "Sessions"

  join: users {
    relationship: many_to_one
    sql_on: ${session_facts.user_id} = ${users.id} ;;
  }
}
