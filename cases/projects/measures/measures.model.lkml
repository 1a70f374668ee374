include: "*.view"

explore: keyed {
  join: other { relationship: one_to_one sql_on: ${keyed.row} = ${other.row} ;; }
}

explore: named {}

explore: loose {
  join: other { relationship: one_to_one sql_on: ${loose.row} = ${other.row} ;; }
}
