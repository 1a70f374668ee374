# What each row of a table gives to measures: a key, which may stand in several rows, and a value.
view: rows {
  extension: required
  sql_table_name: rows ;;
  dimension: row { type: number }
  dimension: region {}
  dimension: status {}
  dimension: price { type: number }
  dimension: counts { type: yesno }

  measure: count { type: count }
  measure: sum { type: sum sql: ${TABLE}.value ;; }
  measure: average { type: average sql: ${TABLE}.value ;; }
  measure: min { type: min sql: ${TABLE}.value ;; }
  measure: max { type: max sql: ${TABLE}.value ;; }
  measure: count_distinct { type: count_distinct sql: ${TABLE}.value ;; }

  # over the rows that count
  measure: some_count { type: count filters: [counts: "yes"] }
  measure: some_sum { type: sum sql: ${TABLE}.value ;; filters: [counts: "yes"] }
  measure: some_min { type: min sql: ${TABLE}.value ;; filters: [counts: "yes"] }
  measure: some_count_distinct { type: count_distinct sql: ${TABLE}.value ;; filters: [counts: "yes"] }
}

# the key is a number
view: keyed {
  extends: [rows]
  dimension: key { primary_key: yes type: number }

  measure: sum_distinct { type: sum_distinct sql_distinct_key: ${TABLE}.key ;; sql: ${TABLE}.value ;; }
  measure: average_distinct { type: average_distinct sql_distinct_key: ${TABLE}.key ;; sql: ${TABLE}.value ;; }

  measure: min_text { type: min sql: ${TABLE}.text ;; }
  measure: max_text { type: max sql: ${TABLE}.text ;; }
  measure: min_day { type: min sql: ${TABLE}.day ;; }
  measure: max_day { type: max sql: ${TABLE}.day ;; }
  measure: min_moment { type: min sql: ${TABLE}.moment ;; }
  measure: max_moment { type: max sql: ${TABLE}.moment ;; }
  measure: min_truth { type: min sql: ${TABLE}.truth ;; }
  measure: max_truth { type: max sql: ${TABLE}.truth ;; }
  measure: count_distinct_text { type: count_distinct sql: ${TABLE}.text ;; }
  measure: count_distinct_truth { type: count_distinct sql: ${TABLE}.truth ;; }
}

# the key is a text
view: named {
  extends: [rows]
  dimension: name { primary_key: yes }
}

# there is no key
view: loose {
  extends: [rows]

  measure: other_average { type: average sql: ${TABLE}.other_value ;; }
}

# another key and another value of the same rows
view: other {
  sql_table_name: rows ;;
  dimension: row { type: number }
  dimension: other_key { primary_key: yes type: number }
  dimension: other_counts { type: yesno }

  measure: count { type: count }
  measure: sum { type: sum sql: ${TABLE}.other_value ;; }
  measure: average { type: average sql: ${TABLE}.other_value ;; }
  measure: some_count { type: count filters: [other_counts: "yes"] }
  measure: some_sum { type: sum sql: ${TABLE}.other_value ;; filters: [other_counts: "yes"] }
}
