# Neither has a primary key.
view: events {
  dimension: id { type: number }
  dimension: name { }
  measure: count { type: count }
  measure: most { type: max sql: ${TABLE}.size ;; }
  measure: total { type: sum sql: ${TABLE}.size ;; }
  measure: mean { type: number sql: ${total} / ${count} ;; }
}

view: clicks {
  dimension: event_id { type: number }
  dimension: page { }
  measure: count { type: count }
}
