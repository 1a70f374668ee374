# One row for each visit, heartbeats aside. Not persisted: visits are watched as they happen.
view: session_facts {
  derived_table: {
    explore_source: events {
      column: session_id {}
      column: user_id {}
      column: browser {}
      column: event_count { field: events.count }
      column: purchase_count {}
      column: started_at { field: events.first_event_at }
    }
  }

  dimension: session_id { primary_key: yes }
  dimension: user_id { type: number hidden: yes }
  dimension: browser {}
  dimension: event_count { type: number }
  dimension: is_bounce { type: yesno sql: ${event_count} = 1 ;; }
  dimension: purchase_count { type: number }
  dimension: has_purchase { type: yesno sql: ${purchase_count} > 0 ;; }
  dimension_group: started { type: time timeframes: [raw, time, date, month, hour_of_day] sql: ${TABLE}.started_at ;; }

  measure: count { type: count label: "Sessions" }
  measure: bounce_count { type: count filters: [is_bounce: "yes"] }
  measure: bounce_rate { type: number sql: 1.0 * ${bounce_count} / NULLIF(${count}, 0) ;; }
  measure: with_purchase_count { type: count filters: [has_purchase: "yes"] }
  measure: average_events { type: average sql: ${event_count} ;; }
}
