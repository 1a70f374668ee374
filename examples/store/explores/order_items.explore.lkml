explore: order_items {
  label: "Sales"
  description: "What was sold, to whom, and at which margin"

  access_filter: { field: products.brand user_attribute: brand }
  access_filter: { field: users.region user_attribute: region }

  join: orders {
    relationship: many_to_one
    sql_on: ${order_items.order_id} = ${orders.id} ;;
  }

  join: users {
    relationship: many_to_one
    sql_on: ${orders.user_id} = ${users.id} ;;
  }

  join: inventory_items {
    relationship: one_to_one
    sql_on: ${order_items.inventory_item_id} = ${inventory_items.id} ;;
  }

  join: products {
    relationship: many_to_one
    sql_on: ${inventory_items.product_id} = ${products.id} ;;
  }

  aggregate_table: sales_by_day {
    query: {
      dimensions: [products.brand, products.category, users.region, orders.created_date]
      measures: [order_items.count, order_items.total_sale_price, order_items.average_sale_price]
    }
    materialization: { datagroup_trigger: new_sales }
  }
}
