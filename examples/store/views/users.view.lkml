include: "/views/created.view.lkml"

view: users {
  extends: [created]
  drill_fields: [id, name, country]

  dimension: id { primary_key: yes type: number }
  dimension: first_name {}
  dimension: last_name {}
  dimension: name { sql: ${first_name} || ' ' || ${last_name} ;; }
  dimension: email { tags: ["email"] }
  dimension: domain_is_known { type: yesno sql: ${email} LIKE '%@example.com' ;; }
  dimension: age { type: number }
  dimension: age_tier { type: tier tiers: [18, 26, 36, 51, 66] style: integer sql: ${age} ;; }
  dimension: gender { suggestions: ["f", "m", "x"] }
  dimension: city {}
  dimension: state {}
  dimension: country { map_layer_name: countries }
  dimension: region {
    description: "North or south, by the country; none for others"
    sql: CASE WHEN ${country} IN ('Norway', 'Sweden', 'Finland') THEN 'North'
         WHEN ${country} IN ('Spain', 'Italy') THEN 'South' END ;;
  }
  dimension: traffic_source {}
  dimension: came_by_search { type: yesno sql: LOWER(${traffic_source}) = 'search' ;; }

  measure: count { type: count }
  measure: average_age { type: average sql: ${age} ;; value_format_name: decimal_1 }
  measure: youngest { type: min sql: ${age} ;; }
  measure: oldest { type: max sql: ${age} ;; }
  measure: country_count { type: count_distinct sql: ${country} ;; }
  measure: search_count { type: count filters: [came_by_search: "yes"] }
  measure: search_share { type: number sql: 1.0 * ${search_count} / NULLIF(${count}, 0) ;; }
}
