# The random test of bench/awareness.sh: `awareness.py PROGRAM PAIRS SEED`.
import collections
import concurrent.futures
import json
import os
import pathlib
import random
import subprocess
import sys
import tempfile

QUERIES = 250
STATUSES = ["complete", "open", "lost", ""]
REGIONS = ["EU", "US", "APAC", ""]
FRAMES = ["raw", "time", "date", "week", "month", "quarter", "year", "hour_of_day", "day_of_week", "day_of_month", "month_num"]


def shop(r, folder):
    """Random tables: three that explores read, and one for each datagroup to watch."""
    rows = {"users": [], "orders": [], "items": []}
    for user in range(1, r.randint(1, 5)):
        rows["users"].append([user, r.choice(REGIONS)])
    for order in range(1, r.randint(1, 25)):
        moment = f"2024-{r.randint(1, 4):02}-{r.randint(1, 28):02} {r.randint(0, 23):02}:{r.choice(['00:00', '59:59', '30:00'])}"
        rows["orders"].append([order, r.choice([r.randint(1, 6), ""]), r.choice(STATUSES), r.choice([moment, moment, moment, ""]), r.choice([r.randint(-5, 60) / 2, ""])])
    for item in range(1, r.randint(1, 30)):
        rows["items"].append([item, r.choice([r.randint(1, 25), ""]), r.choice([r.randint(0, 9), ""])])
    heads = {"users": "id,region", "orders": "id,user_id,status,created_at,total", "items": "id,order_id,price"}
    (folder / "data").mkdir()
    for name, head in heads.items():
        (folder / "data" / f"{name}.csv").write_text("".join(",".join(map(str, row)) + "\n" for row in [head.split(","), *rows[name]]))


def schema(r, tables):
    key = {name: "yes" if r.random() < 0.85 else "" for name in ("users", "orders", "items")}
    lines = ["table,column,kind,key", f"users,id,number,{key['users']}", "users,region,text,", f"orders,id,number,{key['orders']}", "orders,user_id,number,",
             "orders,status,text,", "orders,created_at,moment,", "orders,total,number,", f"items,id,number,{key['items']}", "items,order_id,number,", "items,price,number,"]
    return "\n".join(lines + [f"watched{n},id,number," for n in range(tables)]) + "\n"


VIEWS = """view: orders {
  dimension: id { primary_key: yes type: number }
  dimension: user_id { type: number }
  dimension: status {}
  dimension_group: created { type: time timeframes: [raw, time, date, week, month, quarter, year, hour_of_day, day_of_week, day_of_month, month_num] sql: ${TABLE}.created_at ;; }
  dimension: tier { type: tier tiers: [0, 10, 20] style: integer sql: ${TABLE}.total ;; }
  dimension: is_done { type: yesno sql: ${status} = 'complete' ;; }
  measure: count { type: count }
  measure: total { type: sum sql: ${TABLE}.total ;; }
  measure: mean { type: average sql: ${TABLE}.total ;; }
  measure: least { type: min sql: ${TABLE}.total ;; }
  measure: most { type: max sql: ${TABLE}.total ;; }
  measure: kinds { type: count_distinct sql: ${status} ;; }
  measure: done { type: count filters: [status: "complete"] }
  measure: recent { type: sum sql: ${TABLE}.total ;; filters: [created_date: "after 2024-02-10"] }
  measure: ratio { type: number sql: ${total} / ${count} ;; }
}
view: users {
  dimension: id { primary_key: yes type: number }
  dimension: region {}
  measure: count { type: count }
  measure: regions { type: count_distinct sql: ${region} ;; }
}
view: items {
  dimension: id { primary_key: yes type: number }
  dimension: order_id { type: number }
  dimension: price { type: number }
  measure: count { type: count }
  measure: sum_price { type: sum sql: ${TABLE}.price ;; }
  measure: dearest { type: max sql: ${TABLE}.price ;; }
}
"""
DIMENSIONS = ["orders.id", "orders.user_id", "orders.status", "orders.tier", "orders.is_done", "users.id", "users.region", "items.id", "items.price"]
CREATED = [f"orders.created_{frame}" for frame in FRAMES]
MEASURES = [f"orders.{it}" for it in ("count", "total", "mean", "least", "most", "kinds", "done", "recent", "ratio")]
FURTHER = ["users.count", "users.regions", "items.count", "items.sum_price", "items.dearest"]
FILTERS = {"orders.status": ["complete", "open", "complete, open", "-lost", "", "NULL"], "users.region": ["EU", "EU, US", "-EU", "", "NULL", "%U%"],
           "orders.id": ["<10", "[2, 9]", "2 to 9", "not 3", "1, 2, 3"], "items.price": [">3", "[1, 5]", "NULL"], "orders.tier": ["10", ">0"],
           "orders.created_date": ["2024-02", "after 2024-01-20", "2024-01-10 to 2024-03-05", "NULL"], "orders.created_month": ["2024-01", "2024"],
           "orders.is_done": ["yes", "no"]}


def some(r, names, least, most):
    return r.sample(names, min(len(names), r.randint(least, most)))


def filters(r, most):
    return {name: r.choice(FILTERS[name]) for name in some(r, list(FILTERS), 0, most)}


def aggregate(r, number):
    dims = some(r, DIMENSIONS, 0, 3) + some(r, CREATED, 0, 1)
    measures = some(r, MEASURES + FURTHER, 1, 4)
    given = filters(r, 1) if r.random() < 0.25 else {}
    text = f" filters: [{', '.join(f'{name}: {json.dumps(it)}' for name, it in given.items())}]" if given else ""
    dims += [name for name in given if name not in dims and r.random() < 0.8]
    return f"  aggregate_table: t{number} {{ query: {{ dimensions: [{', '.join(dims)}] measures: [{', '.join(measures)}]{text} }} materialization: {{ datagroup_trigger: g{number} }} }}\n"


def model(r, folder, program):
    """A project of random tables and a random model, and how many aggregate tables its explore has; nothing where each was refused."""
    users = r.choice(["", "", "", "inner", "full_outer"])
    explore = [f"  join: users {{ {f'type: {users} ' if users else ''}relationship: many_to_one sql_on: ${{orders.user_id}} = ${{users.id}} ;; }}\n",
               f"  join: items {{ {'type: inner ' if r.random() < 0.1 else ''}relationship: one_to_many sql_on: ${{items.order_id}} = ${{orders.id}} ;; }}\n"]
    if r.random() < 0.3:
        explore.append("  access_filter: { field: users.region user_attribute: region }\n")
    if r.random() < 0.2:
        name = r.choice(list(FILTERS))
        explore.append(f"  always_filter: {{ filters: [{name}: {json.dumps(r.choice(FILTERS[name]))}] }}\n")
    if r.random() < 0.2:
        explore.append("  sql_always_where: ${orders.status} <> 'lost' ;;\n")
    wanted, kept = r.randint(1, 8), []
    shop(r, folder)
    (folder / "users.csv").write_text("user,attribute,value\nall,region,\"%,NULL\"\nann,region,EU\netl,loader,yes\n")
    (folder / "schema.csv").write_text(schema(r, wanted))
    for tries in range(60):
        if len(kept) == wanted:
            break
        number = len(kept)
        groups = "".join(f"datagroup: g{n} {{ sql_trigger: SELECT MAX(id) FROM watched{n} ;; }}\n" for n in range(number + 1))
        one = aggregate(r, number)
        (folder / "m.model.lkml").write_text(VIEWS + groups + "explore: orders {\n" + "".join(explore + kept + [one]) + "}\n")
        if subprocess.run([program, "check", folder], capture_output=True).stdout == b"ok\n":
            kept.append(one)
    groups = "".join(f"datagroup: g{n} {{ sql_trigger: SELECT MAX(id) FROM watched{n} ;; }}\n" for n in range(len(kept)))
    (folder / "m.model.lkml").write_text(VIEWS + groups + "explore: orders {\n" + "".join(explore + kept) + "}\n")
    return kept


def names_in(r, kept):
    """Fields of one of the aggregate tables, and coarser timeframes of its own, so that many queries fit."""
    words = r.choice(kept)
    dims = [it for it in words[words.index("dimensions: [") + 13:].split("]")[0].split(", ") if it]
    measures = words[words.index("measures: [") + 11:].split("]")[0].split(", ")
    chosen = some(r, dims, 0, 3)
    coarser = [r.choice(CREATED[CREATED.index(it):]) if it in CREATED and r.random() < 0.6 else it for it in chosen]
    return coarser, some(r, measures, 0, 3), dims


def query(r, kept):
    if r.random() < 0.75:
        dims, measures, own = names_in(r, kept)
    else:
        dims, measures, own = some(r, DIMENSIONS + CREATED, 0, 3), some(r, MEASURES + FURTHER, 0, 3), []
    if r.random() < 0.1:
        measures = measures + [it for it in some(r, MEASURES, 1, 1) if it not in measures]
    names = list(dict.fromkeys(dims + measures)) or ["orders.count"]
    r.shuffle(names)
    body = {"fields": names}
    given = {}
    if r.random() < 0.5:
        given = {name: it for name, it in filters(r, 2).items() if name in own or r.random() < 0.15}
        quoted = [it for it in kept if "filters: [" in it]
        if quoted and r.random() < 0.5:
            words = r.choice(quoted)
            name, _, text = words[words.index("filters: [") + 10:].split("\"]")[0].partition(": ")
            given[name] = text[1:]
    if measures and r.random() < 0.25:
        given[r.choice(measures)] = r.choice([">0", ">1", "<20", "2", "NULL"])
    if given:
        body["filters"] = given
    if r.random() < 0.4:
        body["sorts"] = [r.choice(names) + r.choice(["", " desc"])]
    if r.random() < 0.2:
        body["limit"] = r.randint(1, 5)
    return body


def sent(method_path, user, body):
    data = body.encode()
    return f"POST {method_path} HTTP/1.1\r\nX-User: {user}\r\nContent-Length: {len(data)}\r\n\r\n".encode() + data


def replies(data):
    """The replies of a session: statuses and bodies."""
    found = []
    while data:
        head, _, rest = data.partition(b"\r\n\r\n")
        length = int(next(it for it in head.split(b"\r\n") if it.lower().startswith(b"content-length:")).split(b":")[1])
        found.append((head.split(b" ")[1].decode(), rest[:length].decode()))
        data = rest[length:]
    return found


def batch(program, seed):
    """One shop and its queries: the counts, and the pairs that differ."""
    r = random.Random(seed)
    counts, wrong = collections.Counter(), []
    with tempfile.TemporaryDirectory() as name:
        folder = pathlib.Path(name)
        kept = model(r, folder, program)
        if not kept:
            return counts, wrong
        data, begun = b"", 0
        for number in range(len(kept)):
            data += sent(f"/load/watched{number}/append/w{number}", "etl", "id\n1\n") + sent("/check", "etl", "")
            begun += 2
        # (one more, so that no build is at the last snapshot)
        data += sent("/load/watched0/append/last", "etl", "id\n0\n")
        begun += 1
        asked = [(query(r, kept), r.choice(["all", "all", "ann"])) for _ in range(QUERIES)]
        for body, user in asked:
            data += sent("/query/orders", user, json.dumps(body)) + sent("/query/orders", user, json.dumps({**body, "fresh": True}))
        ran = subprocess.run([program, "script", folder], input=data, capture_output=True)
        got = replies(ran.stdout)
        if ran.returncode != 0 or len(got) != begun + 2 * len(asked):
            return counts, [f"seed {seed}: status {ran.returncode}, {len(got)} replies for {begun + 2 * len(asked)} requests"]
        built = {json.loads(got[2 * n + 1][1])["snapshot"]: n for n in range(len(kept))}
        for n, (body, user) in enumerate(asked):
            (status, routed), (other, fresh) = got[begun + 2 * n], got[begun + 2 * n + 1]
            counts["pairs"] += 1
            if status != "200" or other != "200":
                counts["refused"] += 1
                same = (status, routed) == (other, fresh)
            else:
                one, two = json.loads(routed), json.loads(fresh)
                by = built.get(one["snapshot"])
                counts["by the tables" if by is None else f"by table {by + 1} of {len(kept)}"] += 1
                same = (one["rows"], one["complete"], one["fields"]) == (two["rows"], two["complete"], two["fields"])
            if not same:
                wrong.append(f"seed {seed}, {user}: {json.dumps(body)}\n  {routed}\n  {fresh}\n  {''.join(kept)}")
    return counts, wrong


def main(program, pairs, seed):
    counts, wrong = collections.Counter(), []
    with concurrent.futures.ThreadPoolExecutor(os.cpu_count()) as pool:
        while counts["pairs"] < pairs and not wrong:
            for found, differ in pool.map(lambda it: batch(program, it), range(seed, seed + 40)):
                counts.update(found)
                wrong += differ
            seed += 40
    for it in wrong:
        print(it)
    for name in sorted(counts):
        print(f"{counts[name]} {name}")
    print(f"{len(wrong)} differ")
    return 1 if wrong else 0


sys.exit(main(sys.argv[1], int(sys.argv[2]), int(sys.argv[3])))
