view: a {
  dimension: n { type: number }
  dimension: m { type: number }
  dimension: s {}
  dimension_group: d { type: time timeframes: [raw] sql: ${TABLE}.d ;; }
  dimension_group: t { type: time timeframes: [raw, date] sql: ${TABLE}.t ;; }
}
view: b {
  dimension: n { type: number }
  dimension: m { type: number }
  dimension: s {}
  dimension_group: d { type: time timeframes: [raw] sql: ${TABLE}.d ;; }
  dimension_group: t { type: time timeframes: [raw, date] sql: ${TABLE}.t ;; }
}
view: c {
  dimension: n { type: number }
  dimension: m { type: number }
  dimension: s {}
  dimension_group: d { type: time timeframes: [raw] sql: ${TABLE}.d ;; }
  dimension_group: t { type: time timeframes: [raw, date] sql: ${TABLE}.t ;; }
}
