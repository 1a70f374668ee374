view: pairs {
  dimension: a { type: number }
  dimension: b { type: number }
  dimension: plus { type: number sql: ${a} + ${b} ;; }
  dimension: less { type: number sql: ${a} - ${b} ;; }
  dimension: times { type: number sql: ${a} * ${b} ;; }
  dimension: over { type: number sql: ${a} / ${b} ;; }
  dimension: minus { type: number sql: -${a} ;; }
}

view: records {
  dimension: x {}
  dimension: y {}
}
