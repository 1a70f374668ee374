view: orders {
  dimension: id { type: number primary_key: yes }
  dimension: user_id { type: number }
  dimension: status { }
  dimension: is_open { type: yesno sql: ${status} = 'open' ;; }
  dimension_group: created {
    type: time
    timeframes: [date, day_of_week, hour_of_day, time]
    sql: ${TABLE}.created_at ;;
  }
  measure: count { type: count }
  measure: last_day { type: max sql: ${created_date} ;; }
  measure: total { type: sum sql: ${TABLE}.total ;; }
}

view: users {
  dimension: id { type: number primary_key: yes }
  dimension: region { }
}

view: items {
  dimension: id { type: number primary_key: yes }
  dimension: order_id { type: number }
  dimension: price { type: number }
  measure: count { type: count }
}
