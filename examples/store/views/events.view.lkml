include: "/views/created.view.lkml"

view: events {
  extends: [created]

  dimension: id { primary_key: yes type: number }
  dimension: user_id { type: number hidden: yes }
  dimension: session_id {}
  dimension: sequence_number { type: number }
  dimension: event_type {}
  dimension: is_entry { type: yesno sql: ${sequence_number} = 1 ;; }
  dimension: is_purchase { type: yesno sql: ${event_type} = 'Purchase' ;; }
  dimension: browser {}
  dimension: uri {}
  dimension: is_product_page { type: yesno sql: ${uri} LIKE '/product/%' ;; }

  measure: count { type: count }
  measure: session_count { type: count_distinct sql: ${session_id} ;; }
  measure: user_count { type: count_distinct sql: ${user_id} ;; }
  measure: purchase_count { type: count filters: [is_purchase: "yes"] }
  measure: purchases_per_session { type: number sql: 1.0 * ${purchase_count} / NULLIF(${session_count}, 0) ;; }
  measure: longest_session { type: max sql: ${sequence_number} ;; }
  measure: first_event_at { type: min sql: ${created_raw} ;; }
}
