connection: "shop"
include: "/views/*.view.lkml"

datagroup: nightly {
  sql_trigger: SELECT MAX(id) FROM orders ;;
  max_cache_age: "24 hours"
}

persist_with: nightly

explore: orders {
  access_filter: { field: users.region user_attribute: region }

  join: users {
    relationship: many_to_one
    sql_on: ${orders.user_id} = ${users.id} ;;
  }

  join: items {
    relationship: one_to_many
    sql_on: ${items.order_id} = ${orders.id} ;;
  }

  aggregate_table: by_day {
    query: {
      dimensions: [users.region, orders.created_date]
      measures: [orders.count, orders.total, orders.average_total]
    }
    materialization: { datagroup_trigger: nightly }
  }

  aggregate_table: by_price {
    query: {
      dimensions: [users.region, items.price]
      measures: [orders.total, items.count]
    }
    materialization: { datagroup_trigger: nightly }
  }
}
