# The object that a case is about stands in `case.lkml`; here stands what it names.
include: "case"

view: a {
  dimension: i { type: number primary_key: yes }
  dimension: d { type: number }
  measure: count { type: count }
  measure: sum { type: sum sql: ${TABLE}.d ;; }
}

view: b {
  dimension: i { type: number primary_key: yes }
  dimension: c { }
  measure: m { type: count }
}

view: v {
  dimension: i { type: number primary_key: yes }
  dimension: k { type: number }
}

view: x {
  dimension: i { type: number primary_key: yes }
  dimension: j { type: number }
  dimension: a { }
  dimension: c { type: number }
  measure: m { type: count }
  measure: n { type: sum sql: ${TABLE}.n ;; }
}

# The same without keys: what a join can repeat isn't counted then.
view: keyless_a {
  sql_table_name: a ;;
  dimension: i { type: number }
  measure: count { type: count }
}

view: keyless_x {
  sql_table_name: x ;;
  dimension: i { type: number }
  dimension: j { type: number }
  dimension: c { type: number }
  measure: m { type: count }
}

explore: a { }
