view: orders {
  sql_table_name: public.orders ;;
  drill_fields: [id]

  dimension: id { primary_key: yes type: number sql: ${TABLE}.id ;; }
  dimension: user_id { type: number hidden: yes sql: ${TABLE}.user_id ;; }
  dimension: status { type: string sql: ${TABLE}.status ;; }
  dimension_group: created {
    type: time
    timeframes: [raw, time, date, week, month, quarter, year]
    sql: ${TABLE}.created_at ;;
  }

  measure: count { type: count drill_fields: [detail*] }
  measure: total { type: sum sql: ${TABLE}.total ;; }
  measure: average_total { type: average sql: ${TABLE}.total ;; }
  measure: price_sum { type: sum sql: ${items.price} ;; }

  set: detail { fields: [id, users.region] }
}

view: users {
  dimension: id { primary_key: yes type: number }
  dimension: region { map_layer_name: countries }
}

view: items {
  dimension: id { primary_key: yes type: number }
  dimension: order_id { type: number }
  dimension: price { type: number }
  measure: count { type: count }
}
