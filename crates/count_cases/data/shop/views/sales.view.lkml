# The orders once more, without items and without an access filter, and the joins by which an aggregate table fits or doesn't.
view: sales {
  sql_table_name: orders ;;
  dimension: id { primary_key: yes type: number }
  dimension: user_id { type: number }
  dimension_group: created {
    type: time
    timeframes: [date, month]
    sql: ${TABLE}.created_at ;;
  }
  measure: total { type: sum sql: ${TABLE}.total ;; }
}

explore: kept {
  from: sales
  join: users {
    relationship: many_to_one
    sql_on: ${kept.user_id} = ${users.id} ;;
  }
  aggregate_table: by_day {
    query: {
      dimensions: [users.region, kept.created_date]
      measures: [kept.total]
    }
    materialization: { datagroup_trigger: nightly }
  }
}

explore: matched {
  from: sales
  join: users {
    type: inner
    relationship: many_to_one
    sql_on: ${matched.user_id} = ${users.id} ;;
  }
  aggregate_table: by_day {
    query: {
      dimensions: [users.region, matched.created_date]
      measures: [matched.total]
    }
    materialization: { datagroup_trigger: nightly }
  }
}
