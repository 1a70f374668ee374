# Writes a project of a shape and a size to a folder: schema.csv, m.model.lkml, and for `small` and `layers` more files below
# it. bench/check.sh says what each shape is. `lookd check` calls all of them ok but `cycle`.
BEGIN {
    model = folder "/m.model.lkml"; schema = folder "/schema.csv"
    print "table,column,kind,key" >schema
    if (shape == "wide") wide(size)
    if (shape == "chain" || shape == "cycle") chain(size, shape == "cycle")
    if (shape == "nodes") nodes(size)
    if (shape == "store") views(size, 24, int(size / 5), 8)
    if (shape == "company") views(500, 40, 200, 10)
    if (shape == "star") star(size)
    if (shape == "snowflake") snowflake(size)
    if (shape == "small") small(size)
    if (shape == "broad") broad(size)
    if (shape == "layers") layers(size)
    if (shape == "joins") full_explores(size)
    if (shape == "derived") derived(size)
    if (shape == "totals") totals(size)
    if (shape == "steps") steps(size)
    if (shape == "times") times(size)
}

# ---- tables

function column(name, title, kind, key) { print name "," title "," kind "," key >schema }

# A table with a key, a moment and some columns.
function table(name, columns,    i) {
    column(name, "id", "number", "yes")
    column(name, "at", "moment", "")
    for (i = 0; i < columns; i++) column(name, "c" i, i % 3 == 2 ? "text" : "number", "")
}

# ---- one view

function wide(n,    i) {
    table("v", 60)
    print "explore: v {}\nview: v {\n  dimension: id { primary_key: yes type: number }" >model
    for (i = 1; i < n; i++) print "  dimension: f" i " { type: number sql: ${TABLE}.c" (i % 20) * 3 " + " i " ;; }" >model
    print "}" >model
}

function chain(n, turns,    i) {
    table("v", 3)
    print "explore: v {}\nview: v {" >model
    for (i = 0; i < n - 1; i++) print "  dimension: f" i " { type: number sql: ${f" i + 1 "} + 1 ;; }" >model
    print "  dimension: f" n - 1 " { type: number sql: " (turns ? "${f0}" : "${TABLE}.c0") " ;; }\n}" >model
}

# A sum has a node for each column and for each plus, so an odd number of them; a minus in front is one node more.
function nodes(n,    i) {
    table("v", 3)
    printf "explore: v {}\nview: v {\n  dimension: f { type: number sql: %s${TABLE}.c0", (n % 2 ? "" : "- ") >model
    for (i = 0; i < int((n - 1) / 2); i++) printf " + ${TABLE}.c1" >model
    print " ;; }\n}" >model
}

# ---- views of one form, and explores over them

# Views of so many fields over a few tables; explores of so many joins.
function views(n, fields, explores, joins,    v, x) {
    tables_and_views(n, fields)
    for (x = 0; x < explores; x++) {
        open_explore(x, (x * 2) % n)
        many_to_one(x, (x * 2) % n, n, joins)
        print "}" >model
    }
}

function tables_and_views(n, fields,    v) {
    for (v = 0; v < 50; v++) table("t" v, 30)
    for (v = 0; v < n; v++) view(v, fields)
}

function open_explore(x, v) {
    print "explore: e" x " {\n  from: v" v >model
    print "  always_filter: { filters: [e" x ".f0: \">5\"] }" >model
    print "  access_filter: { field: e" x ".f2 user_attribute: region }" >model
}

# Joins of an explore over the view b to every seventh view behind it.
function many_to_one(x, b, n, joins,    j) {
    for (j = 1; j <= joins && j < n; j++)
        print "  join: j" j " { from: v" (b + j * 7) % n " relationship: many_to_one sql_on: ${e" x ".f1} = ${j" j ".id} ;; }" >model
}

function view(v, fields,    i, at) {
    print "view: v" v " {\n  sql_table_name: shop.t" v % 50 " ;;" >model
    print "  dimension: id { primary_key: yes type: number }" >model
    print "  dimension_group: at { type: time timeframes: [raw, date, week, month] sql: ${TABLE}.at ;; }" >model
    for (i = 0; i < fields - 8; i++) {
        at = "${TABLE}.c" i % 30
        if (i % 3 == 2) print "  dimension: f" i " { sql: " at " ;; }" >model
        else if (i % 3 == 1) print "  dimension: f" i " { type: number sql: ${f" i - 1 "} * 2 + " at " ;; }" >model
        else print "  dimension: f" i " { type: number sql: " at " ;; }" >model
    }
    print "  measure: count { type: count }" >model
    print "  measure: total { type: sum sql: ${f0} ;; filters: [f2: \"open,-closed\"] }" >model
    print "  measure: recent { type: count filters: [at_date: \"7 days\"] }" >model
    print "  measure: mean { type: number sql: ${total} / ${count} ;; }\n}" >model
}

# Explores of 31 joins, the most that one may have: some find their rows by the view before, some have two conditions, some
# bring another join, and two are always there.
function full_explores(n,    x, j, found) {
    tables_and_views(32, 12)
    for (x = 0; x < n; x++) {
        open_explore(x, x % 32)
        print "  always_join: [j1, j31]" >model
        for (j = 1; j <= 31; j++) {
            found = (j % 4 == 2 ? "j" j - 1 : "e" x) ".f1"
            print "  join: j" j " {\n    from: v" (x + j) % 32 >model
            print "    type: " (j % 5 == 4 ? "inner" : "left_outer") >model
            print "    relationship: " (j % 9 == 8 ? "one_to_many" : "many_to_one") >model
            if (j % 6 == 5) print "    required_joins: [j" j - 4 "]" >model
            print "    sql_on: ${" found "} = ${j" j ".id}" (j % 7 == 3 ? " AND ${j" j ".f2} <> 'closed'" : "") " ;;\n  }" >model
        }
        print "}" >model
    }
}

# ---- shops

# Four tables of facts, each with a column for each of n dimensions, which they share.
function star(n,    d, f) {
    for (d = 0; d < n; d++) dimension_of_star(d)
    for (f = 0; f < 4; f++) facts_of_star(f, n)
}

function dimension_of_star(d) {
    column("dim" d, "id", "number", "yes")
    column("dim" d, "name", "text", ""); column("dim" d, "code", "text", ""); column("dim" d, "rank", "number", "")
    print "view: dim" d " {\n  sql_table_name: shop.\"dim" d "\" ;;" >model
    print "  dimension: id { primary_key: yes type: number hidden: yes sql: ${TABLE}.id ;; }" >model
    print "  dimension: name { label: \"Name\" sql: ${TABLE}.name ;; }" >model
    print "  dimension: code { type: string sql: UPPER(${TABLE}.code) ;; }" >model
    print "  dimension: rank { type: number }" >model
    print "  dimension: is_top { type: yesno sql: ${rank} <= 10 ;; }" >model
    print "  dimension: title { sql: ${name} || ' (' || ${code} || ')' ;; }" >model
    print "  measure: count { type: count drill_fields: [id, name] }\n}" >model
}

function facts_of_star(f, n,    d, k) {
    column("fact" f, "id", "number", "yes")
    column("fact" f, "at", "moment", ""); column("fact" f, "status", "text", "")
    column("fact" f, "amount", "number", ""); column("fact" f, "pieces", "number", "")
    print "view: fact" f " {\n  dimension: id { primary_key: yes type: number }" >model
    print "  dimension_group: at { type: time timeframes: [date, week, month, quarter, year] sql: ${TABLE}.at ;; }" >model
    print "  dimension: status {}\n  dimension: amount { type: number }\n  dimension: pieces { type: number }" >model
    for (d = 0; d < n; d++) {
        column("fact" f, "d" d, "number", "")
        print "  dimension: d" d " { type: number hidden: yes }" >model
    }
    print "  measure: count { type: count }" >model
    print "  measure: total_amount { type: sum sql: ${amount} ;; value_format_name: usd }" >model
    print "  measure: total_pieces { type: sum sql: ${pieces} ;; }" >model
    print "  measure: average_amount { type: average sql: ${amount} ;; }" >model
    print "  measure: buyers { type: count_distinct sql: ${d0} ;; }" >model
    print "  measure: open_amount { type: sum sql: ${amount} ;; filters: [status: \"open\"] }" >model
    print "  measure: recent { type: count filters: [at_date: \"30 days\"] }" >model
    print "  measure: per_piece { type: number sql: ${total_amount} / NULLIF(${total_pieces}, 0) ;; }\n}" >model
    print "explore: fact" f " {\n  always_filter: { filters: [at_date: \"after 2020-01-01\"] }" >model
    print "  access_filter: { field: fact" f ".status user_attribute: region }" >model
    for (k = 0; k < n && k < 30; k++) {
        d = (f * 5 + k) % n
        if (k % 2) print "  join: dim" d " { foreign_key: d" d " }" >model
        else print "  join: dim" d " { relationship: many_to_one sql_on: ${fact" f ".d" d "} = ${dim" d ".id} ;; }" >model
    }
    print "}" >model
}

# One table of facts and n branches of four levels, of which each names the next: at most seven for 31 joins.
function snowflake(n,    b, l) {
    column("sales", "id", "number", "yes")
    column("sales", "amount", "number", "")
    for (b = 0; b < n; b++) {
        column("sales", "b" b, "number", "")
        for (l = 1; l <= 4; l++) level(b, l)
    }
    print "view: sales {\n  dimension: id { primary_key: yes type: number }" >model
    for (b = 0; b < n; b++) print "  dimension: b" b " { type: number }" >model
    print "  measure: count { type: count }\n  measure: total { type: sum sql: ${TABLE}.amount ;; }\n}" >model
    print "explore: sales {" >model
    for (b = 0; b < n; b++) {
        print "  join: b" b "_1 { foreign_key: b" b " }" >model
        levels(b, "b" b "_1.up")
    }
    print "}" >model
    for (b = 0; b < n; b++) {
        print "explore: b" b "_1 {" >model
        levels(b, "up")
        print "}" >model
    }
}

# A level with the whole path above it, which stands in the explores that join what is above.
function level(b, l,    name) {
    name = "b" b "_" l
    column(name, "id", "number", "yes"); column(name, "name", "text", ""); column(name, "up", "number", "")
    print "view: " name " {\n  dimension: id { primary_key: yes type: number }\n  dimension: name {}" >model
    print "  dimension: up { type: number hidden: yes }" >model
    if (l < 4) print "  dimension: path { sql: ${name} || ' / ' || ${b" b "_" l + 1 ".path} ;; }" >model
    else print "  dimension: path { sql: ${name} ;; }" >model
    print "  measure: count { type: count }\n}" >model
}

# The joins of a branch from its second level on.
function levels(b, field,    l) {
    for (l = 2; l <= 4; l++) {
        print "  join: b" b "_" l " { foreign_key: " field " }" >model
        field = "b" b "_" l ".up"
    }
}

# ---- many files

# Views of five fields, each in a file, and for every second view an explore of two joins in a file.
function small(n,    v, file) {
    print "include: [\"/views/*.view\", \"/explores/*.explore\"]" >model
    for (v = 0; v < 60; v++) {
        column("s" v, "id", "number", "yes"); column("s" v, "name", "text", ""); column("s" v, "next", "number", "")
    }
    for (v = 0; v < n; v++) {
        file = folder "/views/s" v ".view.lkml"
        print "view: s" v " {\n  sql_table_name: shop.s" v % 60 " ;;" >file
        print "  dimension: id { primary_key: yes type: number }\n  dimension: name {}" >file
        print "  dimension: next { type: number }\n  measure: count { type: count }" >file
        print "  measure: names { type: count_distinct sql: ${name} ;; }\n}" >file
        close(file)
    }
    for (v = 0; v < n; v += 2) {
        file = folder "/explores/s" v ".explore.lkml"
        print "explore: s" v " {" >file
        print "  join: first { from: s" (v + 1) % n " foreign_key: next }" >file
        print "  join: second { from: s" (v + 2) % n " sql_on: ${first.next} = ${second.id} ;; }\n}" >file
        close(file)
    }
}

# Views in chains of ten, of which each extends the one before and is refined twice; explores that extend one another.
function layers(n,    c, k) {
    print "include: \"/layers/*\"\ninclude: \"/refinements/*\"" >model
    print "view: common {\n  extension: required\n  dimension: id { primary_key: yes type: number }" >model
    print "  dimension_group: at { type: time timeframes: [date, month] sql: ${TABLE}.at ;; }" >model
    print "  measure: count { type: count }\n}" >model
    print "explore: common {\n  extension: required" >model
    print "  join: region { from: l0_0 relationship: many_to_one sql_on: ${f0} = ${region.id} ;; }\n}" >model
    for (c = 0; c < int(n / 10); c++) {
        table("t" c, 30)
        for (k = 0; k < 10; k++) layer(c, k)
        explores_of_layers(c)
    }
}

function layer(c, k,    file) {
    file = folder "/layers/l" c ".view.lkml"
    print "view: l" c "_" k " {" >file
    print "  extends: [" (k ? "l" c "_" k - 1 : "common") "]" >file
    if (k) print "  dimension: f" k " { type: number sql: ${f" k - 1 "} + ${TABLE}.c" 3 * k " ;; }" >file
    else print "  sql_table_name: shop.t" c " ;;\n  dimension: f0 { type: number sql: ${TABLE}.c0 ;; }" >file
    print "  dimension: text" k " { sql: ${TABLE}.c" 3 * k % 30 + 2 " ;; }" >file
    print "  measure: sum" k " { type: sum sql: ${f" k "} ;; }\n}" >file
    refine(folder "/refinements/a" c ".lkml", "a", c, k)
    refine(folder "/refinements/b" c ".lkml", "b", c, k)
}

# A refinement says one more field, and again what the view says of others.
function refine(file, letter, c, k) {
    print "view: +l" c "_" k " {\n  dimension: id { label: \"Key " letter " " k "\" }" >file
    print "  dimension: " letter k " { type: yesno sql: ${f" k "} > " k " ;; }" >file
    print "  dimension: text" k " { description: \"" letter "\" group_label: \"Texts\" }" >file
    print "  measure: sum" k " { filters: [" letter k ": \"Yes\"] }\n}" >file
}

function explores_of_layers(c) {
    print "explore: x" c " { extends: [common] from: l" c "_9 }" >model
    print "explore: y" c " {\n  extends: [x" c "]" >model
    print "  join: half { from: l" c "_5 relationship: one_to_one sql_on: ${id} = ${half.id} ;; }\n}" >model
    print "explore: +x" c " { always_filter: { filters: [f0: \">0\"] } }" >model
}

# ---- wide views

# Views of 300 fields: a key, 250 dimensions and 49 measures.
function broad(n,    v) {
    for (v = 0; v < n; v++) {
        table("t" v, 60)
        print "view: v" v " {\n  sql_table_name: shop.t" v " ;;\n  dimension: id { primary_key: yes type: number }" >model
        broad_dimensions()
        broad_measures()
        print "}" >model
    }
    for (v = 0; v < n; v += 4) {
        print "explore: v" v " {" >model
        print "  join: left { from: v" (v + 1) % n " sql_on: ${v" v ".f0} = ${left.id} ;; }" >model
        print "  join: right { from: v" (v + 2) % n " sql_on: ${left.f0} = ${right.id} ;; }\n}" >model
    }
}

function broad_dimensions(    i, c, sql) {
    for (i = 0; i < 250; i++) {
        c = int(i / 6) * 3 % 60
        if (i % 6 == 0) sql = "type: number sql: ${TABLE}.c" c
        if (i % 6 == 1) sql = "type: number sql: ${f" i - 1 "} * 2 + 1"
        if (i % 6 == 2) sql = "sql: ${TABLE}.c" c + 2
        if (i % 6 == 3) sql = "type: yesno sql: ${f" i - 3 "} > " i
        if (i % 6 == 4) sql = "sql: CASE WHEN ${f" i - 1 "} THEN ${f" i - 2 "} ELSE 'none' END"
        if (i % 6 == 5) sql = "type: number sql: COALESCE(${f" i - 4 "}, 0)"
        print "  dimension: f" i " { label: \"Field " i "\" group_label: \"Group " int(i / 6) "\" " sql " ;; }" >model
    }
}

function broad_measures(    i, of) {
    for (i = 0; i < 49; i++) {
        of = " sql: ${f" i % 40 * 6 "} ;; "
        if (i % 4 == 0) print "  measure: m" i " { type: sum" of "}" >model
        if (i % 4 == 1) print "  measure: m" i " { type: average" of "filters: [f2: \"a%,-b\"] }" >model
        if (i % 4 == 2) print "  measure: m" i " { type: max" of "}" >model
        if (i % 4 == 3) print "  measure: m" i " { type: number sql: ${m" i - 3 "} / NULLIF(${m" i - 1 "}, 0) ;; }" >model
    }
}

# ---- stored queries

# A derived table of totals for each view, joined back into the explore that it is made from; the first ten are persisted.
function derived(n,    v) {
    print "datagroup: nightly { sql_trigger: SELECT MAX(id) FROM t0 ;; }" >model
    tables_and_views(n, 24)
    for (v = 0; v < n; v++) {
        facts(v)
        open_explore(v, v)
        many_to_one(v, v, n, 2)
        print "  join: facts { from: d" v " relationship: many_to_one sql_on: ${e" v ".f1} = ${facts.key} ;; }\n}" >model
    }
    for (v = 0; v < n; v += 5) {
        print "explore: d" v " {" >model
        print "  join: other { from: d" (v + 1) % n " relationship: one_to_one sql_on: ${d" v ".key} = ${other.key} ;; }\n}" >model
    }
}

function facts(v,    e) {
    e = "e" v
    print "view: d" v " {\n  derived_table: {\n    explore_source: " e " {" >model
    print "      column: key { field: " e ".f1 }\n      column: month { field: " e ".at_month }" >model
    print "      column: rows { field: " e ".count }\n      column: total {}" >model
    print "      filters: [" e ".f2: \"-closed\", " e ".at_date: \"2020 to 2024\"]\n    }" >model
    if (v < 10) print "    datagroup_trigger: nightly" >model
    print "  }\n  dimension: key { primary_key: yes type: number }\n  dimension: rows { type: number }" >model
    print "  dimension: total { type: number }" >model
    print "  dimension_group: of { type: time timeframes: [month, year] sql: ${TABLE}.month ;; }" >model
    print "  measure: average_total { type: average sql: ${total} ;; }" >model
    print "  measure: most_rows { type: max sql: ${rows} ;; }\n}" >model
}

# Explores of six joins over n views, and on the first twelve an aggregate table; four datagroups.
function totals(n,    x, b) {
    print "datagroup: group0 { sql_trigger: SELECT MAX(id) FROM t0 ;; max_cache_age: \"24 hours\" }" >model
    print "datagroup: group1 { sql_trigger: SELECT COUNT(*) FROM t1 ;; }" >model
    print "datagroup: group2 { sql_trigger: SELECT CURRENT_DATE ;; }" >model
    print "datagroup: group3 { interval_trigger: \"6 hours\" }" >model
    tables_and_views(n, 24)
    for (x = 0; x < 16; x++) {
        b = (x * 2) % n
        open_explore(x, b)
        many_to_one(x, b, n, 6)
        if (x < 12) total(x)
        print "}" >model
    }
}

function total(x) {
    print "  aggregate_table: by_" (x % 2 ? "month" : "day") " {\n    query: {" >model
    print "      dimensions: [" (x % 2 ? "at_month" : "at_date") ", f2, j1.f2]" >model
    print "      measures: [count, total, mean, j1.count]" >model
    print "      filters: [f2: \"-closed\", at_date: \"after 2020-01-01\"]\n      timezone: UTC\n    }" >model
    print "    materialization: { datagroup_trigger: group" x % 4 " }\n  }" >model
}

# n derived tables, each made of the explore over the one before.
function steps(n,    i) {
    column("b", "id", "number", "yes"); column("b", "n", "number", "")
    print "view: d0 {\n  sql_table_name: shop.b ;;" >model
    print "  dimension: k { primary_key: yes type: number sql: ${TABLE}.id ;; }" >model
    step_fields()
    for (i = 1; i <= n; i++) {
        print "explore: e" i - 1 " { from: d" i - 1 " }" >model
        print "view: d" i " {\n  derived_table: {\n    explore_source: e" i - 1 " {" >model
        print "      column: k {}\n      column: n { field: e" i - 1 ".most }\n    }\n  }" >model
        print "  dimension: k { primary_key: yes type: number }" >model
        step_fields()
    }
}

function step_fields() {
    print "  dimension: n { type: number }\n  dimension: twice { type: number sql: ${n} * 2 ;; }" >model
    print "  measure: most { type: max sql: ${twice} ;; }\n}" >model
}

# ---- times and tiers

# Views of six groups of eleven timeframes and of six tiers, with fields and filters over them; every second is an explore.
function times(n,    v, i) {
    for (v = 0; v < n; v++) {
        column("t" v, "id", "number", "yes")
        print "view: t" v " {\n  dimension: id { primary_key: yes type: number }" >model
        for (i = 0; i < 6; i++) time_and_tier("t" v, i)
        print "  measure: count { type: count }\n}" >model
    }
    for (v = 0; v < n; v += 2) {
        print "explore: t" v " {\n  always_filter: { filters: [at0_date: \"30 days\"] }" >model
        print "  sql_always_where: ${at1_date} >= '2020-01-01' OR ${at1_date} IS NULL ;;" >model
        print "  join: next { from: t" (v + 1) % n " relationship: one_to_one sql_on: ${t" v ".at3_date} = ${next.at3_date} ;; }\n}" >model
    }
}

# The first three groups are of moments, the others of days.
function time_and_tier(name, i) {
    column(name, "at" i, i < 3 ? "moment" : "day", ""); column(name, "n" i, "number", "")
    print "  dimension_group: at" i " { type: time sql: ${TABLE}.at" i " ;; }" >model
    print "  dimension: band" i " { type: tier tiers: [0, 10, 20, 50, 100, 1000] style: integer sql: ${TABLE}.n" i " ;; }" >model
    print "  dimension: is_monday" i " { type: yesno sql: ${at" i "_day_of_week} = 'Monday' ;; }" >model
    print "  dimension: half" i " { sql: CASE WHEN ${at" i "_month_num} <= 6 THEN 'first' ELSE 'second' END ;; }" >model
    print "  dimension: is_late" i " { type: yesno sql: ${at" i "_hour_of_day} >= 18 AND ${at" i "_month} > '2024-01-01' ;; }" >model
    print "  measure: year" i " { type: count filters: [at" i "_year: \"2024\", band" i ": \">=10\"] }" >model
    print "  measure: weekend" i " { type: count filters: [at" i "_day_of_week: \"Saturday,Sunday\", at" i "_date: \"90 days\"] }" >model
    print "  measure: night" i " { type: sum sql: ${TABLE}.n" i " ;; filters: [at" i "_hour_of_day: \"NOT [6, 22)\", is_late" i ": \"No\"] }" >model
    print "  measure: last" i " { type: max sql: ${at" i "_raw} ;; }" >model
}
