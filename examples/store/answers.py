#!/usr/bin/env python3
"""Works out the answers of queries/*.sql by SQLite, and writes each beside its query as queries/*.csv.

It shares nothing with lookd: the tables are read from data/*.csv, numbers as counts of 1/10,000, and `number` and
`fraction` print what lookd prints for a number and for the quotient of two whole numbers. A derived table T is made of
what queries/tables/T.sql selects, and `rounded` is a quotient in a column of it. Run it in its folder.
"""
import csv
import io
import json
import sqlite3
from fractions import Fraction
from math import floor
from pathlib import Path

KINDS = {"number": "INTEGER", "text": "TEXT", "day": "TEXT", "moment": "TEXT"}


def number(count):
    if count is None:
        return ""
    text = "%d.%04d" % divmod(abs(count), 10_000)
    return ("-" if count < 0 else "") + text.rstrip("0").rstrip(".")


def fraction(above, below):
    return "" if above is None or not below else str(Fraction(above, below))


def rounded(above, below):
    if above is None or not below:
        return None
    nearest = floor(Fraction(abs(above), below) + Fraction(1, 2))
    return nearest if above >= 0 else -nearest


def cell(kind, text):
    if text == "":
        return None
    return int(Fraction(text) * 10_000) if kind == "number" else text


def load(store):
    columns = {}
    for row in csv.DictReader(open("schema.csv")):
        columns.setdefault(row["table"], {})[row["column"]] = row["kind"]
    for table, kinds in columns.items():
        parts = ", ".join(f"{name} {KINDS[kind]}" for name, kind in kinds.items())
        store.execute(f"CREATE TABLE {table} ({parts})")
        for row in csv.DictReader(open(f"data/{table}.csv")):
            cells = [cell(kind, row[name]) for name, kind in kinds.items()]
            store.execute(f"INSERT INTO {table} VALUES ({', '.join('?' * len(cells))})", cells)


def derive(store):
    for path in sorted(Path("queries/tables").glob("*.sql")):
        store.execute(f"CREATE TABLE {path.stem} AS {path.read_text()}")


def answer(store, name):
    query = json.load(open(f"queries/{name}.json"))
    rows = store.execute(open(f"queries/{name}.sql").read()).fetchall()
    limit = query.get("limit", 500)
    text = io.StringIO()
    lines = csv.writer(text, lineterminator="\n")
    lines.writerow(query["fields"])
    lines.writerows(rows[:limit])
    completeness = "complete" if len(rows) <= limit else "cut"
    return text.getvalue() + f"# snapshot 0, {completeness}\n"


def main():
    store = sqlite3.connect(":memory:")
    store.create_function("number", 1, number)
    store.create_function("fraction", 2, fraction)
    store.create_function("rounded", 2, rounded)
    load(store)
    derive(store)
    for line in open("queries/list"):
        name = line.split()[0]
        open(f"queries/{name}.csv", "w").write(answer(store, name))


main()
