view: orders {
  dimension: status {}
  measure: count { type: count }
  measure: total { type: sum sql: ${TABLE}.total ;; }
}
explore: orders {}
