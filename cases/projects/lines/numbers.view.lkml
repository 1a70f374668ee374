# measures that are computed from others
view: +g {
  measure: mean { type: number sql: ${total} / ${count} ;; }
  measure: twice { type: number sql: ${mean} * 2 ;; }
  measure: gap { type: number sql: ${total} - ${average} ;; }
  measure: both { type: number sql: ${mean} + ${average} ;; }
  measure: debt { type: number sql: -${total} ;; }
  measure: known { type: number sql: COALESCE(${average}, ${total}) ;; }
  measure: unless_two { type: number sql: NULLIF(${count}, 2) ;; }
  measure: share { type: number sql: ${count} / -${total} ;; }
  measure: square { type: number sql: ${total} * ${total} ;; }
  measure: cube { type: number sql: ${total} * ${total} * ${total} ;; }
}
