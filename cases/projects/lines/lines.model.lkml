# Rows that are grouped by three dimensions, with a column for what each measure runs over.
include: "*.view"

view: g {
  dimension: id { primary_key: yes type: number }
  dimension: region {}
  dimension: status {}
  dimension: price { type: number }
  dimension: counts { type: yesno }

  measure: count { type: count filters: [counts: "yes"] }
  measure: total { type: sum sql: ${TABLE}.total ;; }
  measure: average { type: average sql: ${TABLE}.average ;; }
  measure: last { type: max sql: ${TABLE}.last ;; }
  measure: greatest { type: max sql: ${TABLE}.greatest ;; }
  measure: users { type: count_distinct sql: ${TABLE}.users ;; }
  measure: tax { type: sum_distinct sql_distinct_key: ${TABLE}.id ;; sql: ${TABLE}.tax ;; }
}

explore: g {}
