# the orders of each region, as they are now
view: by_region {
  derived_table: {
    explore_source: orders {
      column: region { field: users.region }
      column: total {}
      column: orders { field: orders.count }
      column: mean { field: orders.average_total }
      column: greatest {}
      column: statuses {}
      column: eighth {}
      column: double {}
      column: per_open {}
      column: unread { field: orders.open_count }
    }
  }
  dimension: region {}
  dimension: total { type: number }
  dimension: orders { type: number }
  dimension: mean { type: number }
  dimension: greatest { type: number }
  dimension: statuses { type: number }
  dimension: eighth { type: number }
  dimension: double { type: number }
  dimension: per_open { type: number }

  measure: rows { type: count }
  measure: sum_total { type: sum sql: ${total} ;; }
  measure: most { type: max sql: ${total} ;; }
  measure: least { type: min sql: ${total} ;; }
  measure: totals { type: count_distinct sql: ${total} ;; }
  measure: average_total { type: average sql: ${total} ;; }
}
explore: by_region {}

# the same for callers of their own region
explore: own_region {
  from: by_region
  access_filter: { field: own_region.region user_attribute: region }
}

# the same, persisted: made anew with the orders, and never
view: nightly_region {
  derived_table: {
    explore_source: orders {
      column: region { field: users.region }
      column: total {}
    }
    datagroup_trigger: nightly
  }
  dimension: region {}
  dimension: total { type: number }
}
explore: nightly_region {}

view: once_region {
  extends: [nightly_region]
  derived_table: {
    explore_source: orders {
      column: region { field: users.region }
      column: total {}
    }
    datagroup_trigger: once
  }
}
explore: once_region {}

# the orders and items of each price, made anew with the items
view: by_price {
  derived_table: {
    explore_source: orders {
      column: price { field: items.price }
      column: total { field: orders.total }
      column: items { field: items.count }
    }
    datagroup_trigger: stocked
  }
  dimension: price { type: number }
  dimension: total { type: number }
  dimension: items { type: number }
}
explore: by_price {}

# of an explore with filters of its own, and filters in place of them
view: complete_sales {
  derived_table: {
    explore_source: sales {
      column: region { field: users.region }
      column: total {}
      column: orders { field: sales.count }
    }
  }
  dimension: region {}
  dimension: total { type: number }
  dimension: orders { type: number }
}
explore: complete_sales {}

view: open_sales {
  extends: [complete_sales]
  derived_table: {
    explore_source: sales {
      column: region { field: users.region }
      column: total {}
      column: orders { field: sales.count }
      filters: [status: "open", users.region: "-US"]
    }
  }
}
explore: open_sales {}

view: all_sales {
  extends: [complete_sales]
  derived_table: {
    explore_source: sales {
      column: region { field: users.region }
      column: total {}
      column: orders { field: sales.count }
      filters: { field: sales.status value: "" }
    }
  }
}
explore: all_sales {}

# a table over a table: the orders of each user, and of these the greatest of each region
view: per_user {
  derived_table: {
    explore_source: orders {
      column: user_id {}
      column: total {}
    }
  }
  dimension: user_id { type: number }
  dimension: total { type: number }
  measure: best { type: max sql: ${total} ;; }
  measure: customers { type: count_distinct sql: ${user_id} ;; }
}
explore: per_user {
  join: users { relationship: many_to_one sql_on: ${per_user.user_id} = ${users.id} ;; }
}

view: best_users {
  derived_table: {
    explore_source: per_user {
      column: region { field: users.region }
      column: best {}
      column: customers {}
    }
  }
  dimension: region {}
  dimension: best { type: number }
  dimension: customers { type: number }
}
explore: best_users {}

# columns of other kinds: a tier, a yesno, a month, a day of the week, a moment
view: shapes {
  derived_table: {
    explore_source: orders {
      column: band {}
      column: is_large {}
      column: month { field: orders.created_month }
      column: weekday { field: orders.created_day_of_week }
      column: latest {}
    }
  }
  dimension: band { type: number }
  dimension: is_large { type: yesno }
  dimension_group: month { type: time timeframes: [raw, month, quarter] sql: ${TABLE}.month ;; }
  dimension: weekday {}
  dimension_group: latest { type: time timeframes: [raw, date] sql: ${TABLE}.latest ;; }
}
explore: shapes {}

# a key that stands in several rows
view: by_status {
  derived_table: {
    explore_source: orders {
      column: region { field: users.region }
      column: status {}
      column: total {}
    }
  }
  dimension: region { primary_key: yes }
  dimension: status {}
  measure: sum_total { type: sum sql: ${TABLE}.total ;; }
  measure: rows { type: count }
}
explore: by_status {}

# all orders in one row, which is there without orders too; and a row without columns
view: overall {
  derived_table: {
    explore_source: orders {
      column: total {}
      column: mean { field: orders.average_total }
    }
  }
  dimension: total { type: number }
  dimension: mean { type: number }
}
explore: overall {}

view: bare {
  derived_table: { explore_source: orders {} }
  measure: rows { type: count }
}
explore: bare {}

# tables beside others: orders with those of their region, two of the same table, and users with and without orders
explore: compared {
  from: orders
  join: users { relationship: many_to_one sql_on: ${compared.user_id} = ${users.id} ;; }
  join: by_region { relationship: many_to_one sql_on: ${users.region} = ${by_region.region} ;; }
  join: nightly_region { relationship: many_to_one sql_on: ${users.region} = ${nightly_region.region} ;; }
}

explore: both {
  from: by_region
  join: other { from: by_region type: cross relationship: many_to_many }
}

explore: regions {
  from: users
  join: by_region { type: full_outer relationship: many_to_one sql_on: ${regions.region} = ${by_region.region} ;; }
}
