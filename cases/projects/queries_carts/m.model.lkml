# Joins are inner, so that an answer shows whether they enter the query.
include: "*.view"

# Of 32 carts 1 has no user, 2 have no items, 4 no store, 8 no city and 16 no coupon. So the number of carts tells the
# joins of a query: what they leave out differs in each.
explore: any_carts {
  extension: required
  from: carts
  join: users { from: owners type: inner sql_on: ${user_id} = ${users.id} ;; }
  join: items { from: cart_items type: inner relationship: one_to_many sql_on: ${items.cart_id} = ${id} ;; }
  join: stores { type: inner sql_on: ${store_id} = ${stores.id} ;; }
  join: cities { type: inner sql_on: ${stores.city_id} = ${cities.id} ;; }
  join: coupons { type: inner sql_on: ${coupon_id} = ${coupons.id} ;; required_joins: [items] }
}

explore: carts {
  extends: [any_carts]
  always_join: [users]
}

explore: local_carts {
  extends: [any_carts]
  sql_always_where: ${cities.closed} IS NULL ;;
}

explore: own_carts {
  extends: [any_carts]
  access_filter: { field: users.name user_attribute: name }
  access_filter: { field: cities.name user_attribute: city }
  always_filter: { filters: [cities.name: "a%"] }
}
