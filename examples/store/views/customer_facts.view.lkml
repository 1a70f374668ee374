# What each customer has bought so far, cancelled orders aside. Made anew with each build of new_sales.
view: customer_facts {
  derived_table: {
    explore_source: order_items {
      column: user_id { field: orders.user_id }
      column: lifetime_orders { field: orders.count }
      column: lifetime_revenue { field: order_items.total_sale_price }
      column: average_item_price { field: order_items.average_sale_price }
      column: first_order_at { field: orders.first_order_at }
      column: latest_order_at { field: orders.latest_order_at }
      filters: [orders.status: "-Cancelled"]
    }
    datagroup_trigger: new_sales
  }

  dimension: user_id { primary_key: yes type: number hidden: yes }
  dimension: lifetime_orders { type: number }
  dimension: is_repeat_customer { type: yesno sql: ${lifetime_orders} > 1 ;; }
  dimension: lifetime_revenue { type: number value_format_name: eur }
  dimension: revenue_tier { type: tier tiers: [50, 100, 250, 500] style: integer sql: ${lifetime_revenue} ;; }
  dimension: average_item_price { type: number value_format_name: eur }
  dimension_group: first_order { type: time timeframes: [raw, date, month, quarter, year] sql: ${TABLE}.first_order_at ;; }
  dimension_group: latest_order { type: time timeframes: [raw, date, month, quarter, year] sql: ${TABLE}.latest_order_at ;; }

  measure: count { type: count label: "Customers with orders" }
  measure: repeat_count { type: count filters: [is_repeat_customer: "yes"] }
  measure: repeat_share { type: number sql: 1.0 * ${repeat_count} / NULLIF(${count}, 0) ;; }
  measure: average_lifetime_orders { type: average sql: ${lifetime_orders} ;; }
  measure: average_lifetime_revenue { type: average sql: ${lifetime_revenue} ;; value_format_name: eur }
}
