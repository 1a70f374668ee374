# orders with a region and items with a price, both without a primary key
view: orders {
  dimension: region {}
  dimension: link { type: number }
  measure: count { type: count }
}

view: items {
  dimension: price { type: number }
  dimension: link { type: number }
  measure: count { type: count }
}
