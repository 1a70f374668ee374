include: "/views/created.view.lkml"

view: orders {
  extends: [created]

  dimension: id { primary_key: yes type: number }
  dimension: user_id { type: number hidden: yes }
  dimension: status {}
  dimension: is_open { type: yesno sql: ${status} IN ('Processing', 'Shipped') ;; }
  dimension_group: shipped { type: time timeframes: [raw, date, month] sql: ${TABLE}.shipped_at ;; }
  dimension_group: delivered { type: time timeframes: [raw, date, month] sql: ${TABLE}.delivered_at ;; }
  dimension: is_delivered { type: yesno sql: ${delivered_raw} IS NOT NULL ;; }
  dimension: shipping_cost { type: number }
  dimension: shipping_tier { type: tier tiers: [0, 5, 10] style: integer sql: ${shipping_cost} ;; }

  measure: count { type: count }
  measure: open_count { type: count filters: [is_open: "yes"] }
  measure: customer_count { type: count_distinct sql: ${user_id} ;; }
  measure: total_shipping_cost { type: sum sql: ${shipping_cost} ;; }
  measure: average_shipping_cost { type: average sql: ${shipping_cost} ;; }
  measure: dearest_shipping { type: max sql: ${shipping_cost} ;; }
  measure: first_order_at { type: min sql: ${created_raw} ;; }
  measure: latest_order_at { type: max sql: ${created_raw} ;; }
}
