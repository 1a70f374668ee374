view: times {
  dimension: id { primary_key: yes type: number }
  dimension_group: day { type: time sql: ${TABLE}.day ;; }
  dimension_group: moment { type: time sql: ${TABLE}.moment ;; }
}

explore: times {}
