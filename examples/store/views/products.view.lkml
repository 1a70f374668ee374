view: products {
  drill_fields: [id, name, brand]

  dimension: id { primary_key: yes type: number }
  dimension: name {}
  dimension: sku {}
  dimension: category {}
  dimension: brand { suggest_explore: products suggest_dimension: products.brand }
  dimension: department {}
  dimension: retail_price { type: number value_format_name: eur }
  dimension: retail_price_tier { type: tier tiers: [25, 50, 100] style: integer sql: ${retail_price} ;; }
  dimension: full_name { sql: UPPER(${brand}) || ': ' || ${name} ;; }

  measure: count { type: count }
  measure: brand_count { type: count_distinct sql: ${brand} ;; }
  measure: category_count { type: count_distinct sql: ${category} ;; }
  measure: average_retail_price { type: average sql: ${retail_price} ;; }
  measure: dearest { type: max sql: ${retail_price} ;; }
  measure: cheapest { type: min sql: ${retail_price} ;; }
}
