view: orders {
  sql_table_name: public.orders ;;
  dimension: id { primary_key: yes type: number }
  dimension: user_id { type: number }
  dimension: status {}
  dimension: band { type: tier tiers: [0, 60] sql: ${TABLE}.total ;; }
  dimension: is_large { type: yesno sql: ${TABLE}.total > 40 ;; }
  dimension_group: created { type: time timeframes: [raw, date, month, day_of_week] sql: ${TABLE}.created_at ;; }

  measure: count { type: count }
  measure: total { type: sum sql: ${TABLE}.total ;; }
  measure: average_total { type: average sql: ${TABLE}.total ;; }
  measure: greatest { type: max sql: ${TABLE}.total ;; }
  measure: latest { type: max sql: ${created_raw} ;; }
  measure: statuses { type: count_distinct sql: ${status} ;; }
  measure: open_count { type: count filters: [status: "open"] }
  measure: eighth { type: number sql: ${total} / 8 ;; }
  measure: double { type: number sql: ${total} * 2 ;; }
  measure: per_open { type: number sql: ${total} / NULLIF(${open_count}, 0) ;; }
}

view: users {
  dimension: id { primary_key: yes type: number }
  dimension: region {}
  measure: count { type: count }
}

view: items {
  dimension: id { primary_key: yes type: number }
  dimension: order_id { type: number }
  dimension: price { type: number }
  measure: count { type: count }
}
