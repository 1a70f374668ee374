include: "*.view"

explore: events {
  join: clicks { relationship: one_to_many sql_on: ${clicks.event_id} = ${events.id} ;; }
}
