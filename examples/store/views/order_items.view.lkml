view: order_items {
  dimension: id { primary_key: yes type: number }
  dimension: order_id { type: number hidden: yes }
  dimension: inventory_item_id { type: number hidden: yes }
  dimension: sale_price { type: number value_format_name: eur }
  dimension: price_tier { type: tier tiers: [20, 50, 100] style: integer sql: ${sale_price} ;; }
  dimension_group: returned {
    type: time
    datatype: date
    convert_tz: no
    timeframes: [raw, date, month, year]
    sql: ${TABLE}.returned_on ;;
  }
  dimension: is_returned { type: yesno sql: ${returned_raw} IS NOT NULL ;; }
  dimension: margin { type: number sql: ${sale_price} - ${inventory_items.cost} ;; }
  dimension: is_at_a_loss { type: yesno sql: ${margin} < 0 ;; }
  dimension: discount {
    type: number
    description: "What the customer did not pay of the list price"
    sql: COALESCE(${products.retail_price}, 0) - ${sale_price} ;;
  }

  measure: count { type: count }
  measure: order_count { type: count_distinct sql: ${order_id} ;; }
  measure: total_sale_price { type: sum sql: ${sale_price} ;; }
  measure: average_sale_price { type: average sql: ${sale_price} ;; }
  measure: total_margin { type: sum sql: ${margin} ;; }
  measure: margin_rate { type: number sql: ${total_margin} / NULLIF(${total_sale_price}, 0) ;; }
  measure: returned_count { type: count filters: [is_returned: "yes"] }
  measure: returned_total { type: sum sql: ${sale_price} ;; filters: [is_returned: "yes"] }
  measure: return_rate { type: number sql: 1.0 * ${returned_count} / NULLIF(${count}, 0) ;; }
  measure: total_discount { type: sum sql: ${discount} ;; }
}
