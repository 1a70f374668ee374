view: orders {
  dimension: id { type: number primary_key: yes }
  dimension: status { type: string }
  dimension: total { type: number }
}
explore: orders {}
view: states {
  dimension: id { type: number }
  dimension: status { type: string }
}
explore: states {}
view: ids {
  dimension: id { type: number primary_key: yes }
}
explore: ids {}
view: pairs {
  dimension: a { type: string }
  dimension: b { type: string }
}
explore: pairs {}
view: texts {
  dimension: a { type: string }
  measure: count { type: count }
}
explore: texts {}
view: times {
  dimension: c { type: yesno }
  dimension_group: d { type: time timeframes: [raw] sql: ${TABLE}.d ;; }
  dimension_group: e { type: time timeframes: [raw] sql: ${TABLE}.e ;; }
}
explore: times {}
view: dated {
  dimension: id { type: number primary_key: yes }
  dimension_group: created_at { type: time timeframes: [raw] sql: ${TABLE}.created_at ;; }
}
explore: dated {}
view: priced {
  dimension: a { type: string }
  dimension: b { type: number }
}
explore: priced {}
view: numbers {
  dimension: a { type: number }
  dimension: b { type: number }
}
explore: numbers {}
view: amounts {
  dimension: n { type: number }
}
explore: amounts {}
view: days {
  dimension_group: d { type: time timeframes: [raw] sql: ${TABLE}.d ;; }
}
explore: days {}
view: moments {
  dimension_group: m { type: time timeframes: [raw] sql: ${TABLE}.m ;; }
}
explore: moments {}
view: keyed {
  dimension: id { type: number primary_key: yes }
  dimension: a { type: string }
  measure: count { type: count }
}
explore: keyed {}
view: counted {
  dimension: id { type: number primary_key: yes }
  dimension: n { type: number }
}
explore: counted {}
view: names {
  dimension: a { type: string primary_key: yes }
}
explore: names {}
view: calendar {
  dimension_group: d { type: time timeframes: [raw] sql: ${TABLE}.d ;; }
}
explore: calendar {}
