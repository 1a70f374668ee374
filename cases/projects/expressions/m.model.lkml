# The view t of a case stands in t.view.lkml and its view `values`, of one row, in values.view.lkml.
include: "*.view"

explore: values {
  join: none { sql_on: 1 = 2 ;; }
}
