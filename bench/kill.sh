#!/bin/sh
# Kills a program that saves loads, by SIGKILL, 100 times at moments drawn from a fixed seed, and looks each time into a copy
# of the store: by Python's sqlite3, by Debian's `sqlite3` where it is installed, and by the program's next start. All
# acknowledged loads have to be there with their ids and the number, and none by half. Then it lets syncs report a failure,
# one a run, though they were made. A test outside the gate: it builds the program of `saves.sh`, unless PROGRAM names one.
# Words: the number of kills, the seed, and the number of syncs.
. "$(dirname "$0")/saves.sh"
cat >"$work/kill.py" <<'PYTHON'
import os
import random
import shutil
import signal
import sqlite3
import subprocess
import sys
import time

program, folder = sys.argv[1:3]
kills, seed, syncs = map(int, sys.argv[3:])
LONGEST = 0.5  # seconds
RUNS = 25  # kills of one file
TABLES = ("items", "orders", "users")


def body(number):
    return ("id\n" + "".join(f"{number}.{row}\n" for row in range(number * 37 % 2000))).encode()


def folded(last):
    """What a store holds after the saves up to a number."""
    chunks = {}
    for number in range(1, last + 1):
        if number % 11 == 0:
            continue
        table = TABLES[number % 3]
        if number % 7 == 0:
            chunks = {n: t for n, t in chunks.items() if t != table}
        chunks[number] = table
    return [(n, t, body(n)) for n, t in sorted(chunks.items())]


def ids(last):
    return [(f"load-{n}", n, n * 37 % 2000) for n in range(1, last + 1) if n % 11]


def copied(store, name):
    for end in ("", "-wal", "-shm"):
        if os.path.exists(f"{folder}/{name}{end}"):
            os.remove(f"{folder}/{name}{end}")
        if os.path.exists(store + end):
            shutil.copy(store + end, f"{folder}/{name}{end}")
    return f"{folder}/{name}"


def found(store):
    """The number of a store, whose rows have to be those of the saves up to it; 0 where it has no table, None where it is
    no database."""
    db = sqlite3.connect(copied(store, "python.db"))
    try:
        assert db.execute("PRAGMA integrity_check").fetchall() == [("ok",)]
    except sqlite3.DatabaseError:
        # Only a file that is being made may be no database. The program's next start has to take it.
        return None
    if not db.execute("SELECT count(*) FROM sqlite_schema").fetchone()[0]:
        return 0
    rows = db.execute("SELECT one, version, number FROM state").fetchall()
    assert len(rows) == 1 and rows[0][:2] == (1, 1), rows
    number = rows[0][2]
    assert db.execute("SELECT number, target, body FROM chunks ORDER BY number").fetchall() == folded(number)
    assert db.execute("SELECT id, number, rows FROM ids ORDER BY number").fetchall() == ids(number)
    db.close()
    return number


def told_by_debian(store):
    sql = "SELECT number, (SELECT count(*) FROM ids), (SELECT count(*) FROM chunks), (SELECT sum(length(body)) FROM chunks) FROM state"
    ran = subprocess.run(["sqlite3", copied(store, "debian.db"), sql], capture_output=True, text=True)
    return ran.stdout.strip() or ran.stderr.strip()


rng = random.Random(seed)
has_debian = shutil.which("sqlite3") is not None
saved = unasked = empty = unmade = compared = 0
longest = 0
last = 0
for kill in range(kills):
    store = f"{folder}/store{kill // RUNS}.db"
    last = last if kill % RUNS else 0
    with open(f"{folder}/told", "w") as told:
        run = subprocess.Popen([program, store], stdout=told)
        # Each fifth time the moment counts from the start, and else from the line that says that the store is open.
        while kill % 5 and not os.path.getsize(told.name):
            time.sleep(0.001)
        time.sleep(rng.uniform(0, LONGEST))
        run.send_signal(signal.SIGKILL)
        run.wait()
    assert run.returncode == -signal.SIGKILL, run.returncode
    lines = open(f"{folder}/told").read().split("\n")
    assert lines.pop() == "", "a line was cut"
    acknowledged = last
    if lines:
        # The program found what was found in the copy after the kill before.
        assert lines[0] == f"opened at {last}", (lines[0], last)
        assert lines[1:] == [str(n) for n in range(last + 1, last + len(lines))], lines
        acknowledged = last + len(lines) - 1
    else:
        empty += 1
    if not os.path.exists(store):
        continue
    number = found(store)
    if number is None:
        assert last == 0 and not lines, "the store is no database any more"
        unmade += 1
        continue
    # The save that was under way may be there whole, and no more than that.
    assert number in (acknowledged, acknowledged + 1), (number, acknowledged)
    if has_debian and number:
        held = folded(number)
        line = f"{number}|{len(ids(number))}|{len(held)}|{sum(len(b) for _, _, b in held)}"
        assert told_by_debian(store) == line, (told_by_debian(store), line)
        compared += 1
    saved += acknowledged - last
    unasked += number - acknowledged
    longest = max(longest, os.path.getsize(f"{store}-wal"))
    last = number
print(f"{kills} kills by seed {seed}: {saved} loads and checks acknowledged, none lost and none by half")
print(f"{unasked} times the save that was under way was there, {empty} times the program had not opened the store,"
      f" {unmade} times it had no first page")
print(f"{compared} times Debian's sqlite3 read the same numbers; the longest log had {longest} bytes")



def started(store, failing):
    """The lines of a run in which one sync reports a failure, up to its end or for a few seconds."""
    settings = {**os.environ, "LD_PRELOAD": f"{folder}/sync.so", "FAILING": str(failing)}
    with open(f"{folder}/told", "w") as told:
        run = subprocess.Popen([program, store], stdout=told, env=settings)
        try:
            run.wait(timeout=10)
        except subprocess.TimeoutExpired:
            run.kill()
            run.wait()
    return open(f"{folder}/told").read().split("\n")[:-1]


# Syncs that are made and then reported as failed, one a run: the save may be there, and is then refused until the next start.
stood = gone = unopened = unreported = 0
for at in range(1, syncs + 1):
    store = f"{folder}/failing{at}.db"
    lines = started(store, at)
    number = found(store) or 0
    if not lines or not lines[0].startswith("opened at"):
        unopened += 1
        assert number == 0
    elif " failed; " not in lines[-1]:
        unreported += 1
        assert number in (len(lines) - 1, len(lines)), (number, lines)
    else:
        acknowledged = len(lines) - 2
        failed, again = lines[-1].split(" failed; saved at the second time: ")
        assert int(failed) == acknowledged + 1 == number, (lines[-1], number)
        assert again in ("false, as a check: false", "true, as a check: false"), again
        stood += again.startswith("false")
        gone += again.startswith("true")
    with subprocess.Popen([program, store], stdout=subprocess.PIPE, text=True) as run:
        line = run.stdout.readline()
        run.kill()
    assert line == f"opened at {number}\n", (at, number, line)
print(f"{syncs} syncs made and reported as failed, one a run: {stood} times the save stood in the store, and its load and a"
      f" check of its number were refused until the next start, which read it; {gone} times it was saved at the second time;"
      f" {unopened} times the store was not opened, and the next start made it; {unreported} times no save failed by it")
PYTHON
cat >"$work/sync.c" <<'SYNC'
// Reports one sync as failed that was made: that of the number in FAILING.
#define _GNU_SOURCE
#include <dlfcn.h>
#include <errno.h>
#include <stdlib.h>

static int counted(const char *name, int file) {
    static int calls;
    int (*sync)(int) = (int (*)(int))dlsym(RTLD_NEXT, name);
    int answer = sync(file);
    if (++calls != atoi(getenv("FAILING"))) return answer;
    errno = EIO;
    return -1;
}

int fdatasync(int file) { return counted("fdatasync", file); }
int fsync(int file) { return counted("fsync", file); }
SYNC
mkdir "$work/stores" && cc -shared -fPIC -o "$work/stores/sync.so" "$work/sync.c" || exit 1
python3 "$work/kill.py" "$PROGRAM" "$work/stores" "${1:-100}" "${2:-28}" "${3:-40}"
