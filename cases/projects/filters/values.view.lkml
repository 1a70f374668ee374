# a value of each kind
view: values {
  dimension: id { primary_key: yes type: number }
  dimension: text {}
  dimension: number { type: number }
  dimension: truth { type: yesno }
  dimension_group: day { type: time timeframes: [raw] sql: ${TABLE}.day ;; }
  dimension_group: moment { type: time timeframes: [raw] sql: ${TABLE}.moment ;; }

  # the empty text, which no table holds, where the column is null
  dimension: blank { sql: COALESCE(${TABLE}.text, '') ;; }

  # the truth value as it is, which is null where it is unknown; a dimension is no there
  measure: greatest { type: max sql: ${TABLE}.truth ;; }
  measure: count { type: count }
  measure: average { type: average sql: ${TABLE}.number ;; }
}
