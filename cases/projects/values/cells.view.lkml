# a column of each kind, as it is
view: cells {
  dimension: id { primary_key: yes type: number }
  dimension: text_raw { sql: ${TABLE}.text ;; }
  dimension: number_raw { type: number sql: ${TABLE}.number ;; }
  dimension: yesno_raw { type: yesno sql: ${TABLE}.yesno ;; }
  dimension_group: day { type: time timeframes: [raw, date, week, month, quarter, year] sql: ${TABLE}.day ;; }
  dimension_group: moment { type: time timeframes: [raw, hour_of_day] sql: ${TABLE}.moment ;; }

  # whether a column is null
  dimension: text_null { type: yesno sql: ${TABLE}.text IS NULL ;; }
  dimension: number_null { type: yesno sql: ${TABLE}.number IS NULL ;; }
  dimension: yesno_null { type: yesno sql: ${TABLE}.yesno IS NULL ;; }
  dimension: day_null { type: yesno sql: ${TABLE}.day IS NULL ;; }
  dimension: moment_null { type: yesno sql: ${TABLE}.moment IS NULL ;; }

  dimension: tier { type: tier tiers: [0, 10, 20] style: integer sql: ${TABLE}.number ;; }

  # names that differ in little
  dimension: 1 { sql: ${TABLE}.text ;; }
  dimension: 2 { sql: ${TABLE}.text ;; }
  dimension: 3 { sql: ${TABLE}.text ;; }
  dimension: 7 { sql: ${TABLE}.text ;; }
  dimension: Id { type: number sql: ${TABLE}.id ;; }

  measure: count { type: count }
  measure: sum { type: sum sql: ${TABLE}.number ;; }
  measure: average { type: average sql: ${TABLE}.number ;; }
}
