view: orders {
  dimension: id { type: number primary_key: yes }
  measure: count { type: count }
  measure: total { type: sum sql: ${TABLE}.total ;; }
}
explore: orders {}
