#!/bin/sh
# Times the store of loads in a file beside Python's sqlite3 on the same disk: 100 saves of 1,000 rows on average, with the same
# transactions, the same journal and the same syncs; and the opening of a store of 1,000 batches of 16 KB with the reading of
# all that it holds. The program is timed from outside: its saves by the lines that it prints, and the reading from its start to
# its first line, in time that passed and in time that the processor worked. An opening has the kernel drop its copies of the
# file; Python reads it once after the same, and once from the copies. Each is run seven times, in turns; the middle and the
# least are told. Then it looks whether Debian's `sqlite3` reads what Python reads, also in a backup that it made, and what
# it says of a store that is open. A measurement, not a test: it builds the program of `saves.sh`, unless PROGRAM names one.
. "$(dirname "$0")/saves.sh"
cat >"$work/keep.py" <<'PYTHON'
import os
import shutil
import sqlite3
import statistics
import subprocess
import sys
import time

program, folder = sys.argv[1], sys.argv[2]
SAVES = 100
NAMES = ("items", "orders", "users")
TABLES = """
CREATE TABLE state (one INTEGER PRIMARY KEY, version INTEGER NOT NULL, number INTEGER NOT NULL) STRICT;
CREATE TABLE chunks (number INTEGER PRIMARY KEY, target TEXT NOT NULL, body BLOB NOT NULL) STRICT;
CREATE TABLE ids (id TEXT PRIMARY KEY, number INTEGER NOT NULL, rows INTEGER NOT NULL) STRICT;
INSERT INTO state (one, version, number) VALUES (1, 1, 0);
"""


def gone(path):
    for end in ("", "-wal", "-shm"):
        if os.path.exists(path + end):
            os.remove(path + end)
    return path


def copied(path, to):
    gone(to)
    for end in ("", "-wal"):
        if os.path.exists(path + end):
            shutil.copy(path + end, to + end)
            # A copy that is still to be written would be written by the opening, which syncs the file.
            with open(to + end, "rb+") as copy:
                os.fsync(copy.fileno())
    return to


def opened(path):
    db = sqlite3.connect(path, isolation_level=None)
    db.execute("PRAGMA journal_mode = WAL")
    db.execute("PRAGMA synchronous = FULL")
    return db


def body(number):
    return ("id\n" + "".join(f"{number}.{row}\n" for row in range(number * 37 % 2000))).encode()


def saved_by_program(path):
    with subprocess.Popen([program, path], stdout=subprocess.PIPE, text=True) as run:
        assert run.stdout.readline() == "opened at 0\n"
        begun = time.perf_counter()
        for number in range(1, SAVES + 1):
            assert run.stdout.readline() == f"{number}\n"
        took = time.perf_counter() - begun
        run.kill()
    return took * 1000


def saved_by_python(path):
    db = opened(path)
    db.executescript(TABLES)
    begun = time.perf_counter()
    for number in range(1, SAVES + 1):
        db.execute("BEGIN IMMEDIATE")
        if number % 11:
            name = NAMES[number % 3]
            if number % 7 == 0:
                db.execute("DELETE FROM chunks WHERE target = ?1", (name,))
            db.execute("INSERT INTO chunks (number, target, body) VALUES (?1, ?2, ?3)", (number, name, body(number)))
            db.execute("INSERT INTO ids (id, number, rows) VALUES (?1, ?2, ?3)", (f"load-{number}", number, number * 37 % 2000))
        db.execute("UPDATE state SET number = ?1 WHERE one = 1 AND number < ?1", (number,))
        db.execute("COMMIT")
    took = time.perf_counter() - begun
    db.close()
    return took * 1000


def filled(path):
    """A store of 1,000 batches of 16 KB."""
    db = opened(path)
    db.executescript(TABLES)
    db.execute("BEGIN")
    for number in range(1, 1001):
        db.execute("INSERT INTO chunks (number, target, body) VALUES (?1, 'orders', ?2)", (number, b"0123456789abcde\n" * 1024))
        db.execute("INSERT INTO ids (id, number, rows) VALUES (?1, ?2, 1024)", (f"load-{number}", number))
    db.execute("UPDATE state SET number = 1000")
    db.execute("COMMIT")
    db.close()
    return path


def read_by_program(path):
    begun = time.perf_counter()
    with subprocess.Popen([program, path], stdout=subprocess.PIPE, text=True) as run:
        assert run.stdout.readline() == "opened at 1000\n"
        took = time.perf_counter() - begun
        worked = int(open(f"/proc/{run.pid}/schedstat").read().split()[0]) / 1e6
        run.kill()
    return took * 1000, worked


def dropped(path):
    """A file of which the kernel holds no copy."""
    with open(path, "rb") as file:
        os.fsync(file.fileno())
        os.posix_fadvise(file.fileno(), 0, 0, os.POSIX_FADV_DONTNEED)
    return path


def rows_of(db):
    chunks = db.execute("SELECT number, target, body FROM chunks ORDER BY number").fetchall()
    ids = db.execute("SELECT id, number, rows FROM ids ORDER BY number").fetchall()
    return db.execute("SELECT one, version, number FROM state").fetchall(), chunks, ids


def read_by_python(path):
    begun, worked = time.perf_counter(), time.process_time()
    db = sqlite3.connect(path)
    rows = rows_of(db)
    took, worked = time.perf_counter() - begun, time.process_time() - worked
    assert len(rows[1]) == len(rows[2]) == 1000
    db.close()
    return took * 1000, worked * 1000


def told(name, ours, python):
    for word, of in (("in the middle", statistics.median), ("at least", min)):
        print(f"{name}, {word}: {of(ours):.1f} ms, Python {of(python):.1f} ms, {of(ours) / of(python):.2f} times")


def debian(path, sql):
    ran = subprocess.run(["sqlite3", path, sql], capture_output=True, text=True)
    return ran.stdout + ran.stderr


def compared(path):
    """Whether Debian's sqlite3 reads the rows that Python reads, in a store and in its backup."""
    sql = "SELECT * FROM state; SELECT number, target, hex(body) FROM chunks ORDER BY number; SELECT * FROM ids ORDER BY number"
    state, chunks, ids = rows_of(sqlite3.connect(copied(path, f"{folder}/python.db")))
    lines = [*state, *((number, target, text.hex().upper()) for number, target, text in chunks), *ids]
    wanted = "".join("|".join(map(str, line)) + "\n" for line in lines)
    store = copied(path, f"{folder}/debian.db")
    debian(store, f".backup {gone(f'{folder}/backup.db')}")
    return debian(store, sql) == wanted, debian(f"{folder}/backup.db", sql) == wanted


store = f"{folder}/ours.db"
told(f"{SAVES} saves", *zip(*((saved_by_program(gone(store)), saved_by_python(gone(f"{folder}/theirs.db"))) for _ in range(7))))
full = filled(gone(f"{folder}/full.db"))
ours, disk, copies = zip(*((
    read_by_program(copied(full, f"{folder}/first.db")),
    read_by_python(dropped(copied(full, f"{folder}/second.db"))),
    read_by_python(copied(full, f"{folder}/second.db")),
) for _ in range(7)))
for whence, python in (("the disk", disk), ("the kernel's copies", copies)):
    for name, at in (("opening and reading 1,000 batches of 16 KB", 0), ("the processor's time for it", 1)):
        told(f"{name}, Python from {whence}", [times[at] for times in ours], [times[at] for times in python])
print("Debian's sqlite3 reads the same rows of a store, and of its backup:", *compared(store))
with subprocess.Popen([program, gone(store)], stdout=subprocess.PIPE, text=True) as run:
    run.stdout.readline()
    print("of a store that is open it says:", debian(store, "SELECT count(*) FROM ids").strip(),
          "| to a backup:", debian(store, f".backup {folder}/open.db").strip())
    run.kill()
PYTHON
mkdir "$work/stores"
python3 "$work/keep.py" "$PROGRAM" "${1:-$work/stores}"
