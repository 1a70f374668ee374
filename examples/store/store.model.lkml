connection: "store"

include: "/views/*.view.lkml"
include: "/explores/*.explore.lkml"
include: "/refinements/*.lkml"

datagroup: new_sales {
  label: "New sales"
  description: "Due when something was sold since the last build"
  sql_trigger: SELECT MAX(id) FROM order_items ;;
  max_cache_age: "24 hours"
}

persist_with: new_sales
