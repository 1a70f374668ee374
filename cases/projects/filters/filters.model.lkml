include: "*.view"

explore: values {}

explore: orders {
  access_filter: { field: orders.region user_attribute: region }
  sql_always_where: ${items.price} > 0 ;;

  join: items {
    relationship: one_to_many
    sql_on: ${orders.link} = ${items.link} ;;
  }
}
