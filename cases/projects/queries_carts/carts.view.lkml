view: carts {
  dimension: id { type: number primary_key: yes }
  dimension: user_id { type: number }
  dimension: store_id { type: number }
  dimension: coupon_id { type: number }
  measure: count { type: count }
  measure: with_coupon { type: count filters: [coupons.code: "-NULL"] }
  measure: share { type: number sql: ${with_coupon} / ${count} ;; }
}

view: owners {
  dimension: id { type: number primary_key: yes }
  dimension: name { }
}

view: cart_items {
  dimension: id { type: number primary_key: yes }
  dimension: cart_id { type: number }
  dimension: price { type: number }
}

view: stores {
  dimension: id { type: number primary_key: yes }
  dimension: city_id { type: number }
}

view: cities {
  dimension: id { type: number primary_key: yes }
  dimension: name { }
  dimension: closed { }
}

view: coupons {
  dimension: id { type: number primary_key: yes }
  dimension: code { }
}
