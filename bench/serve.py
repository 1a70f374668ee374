"""What `bench/serve.sh` runs: a server over the worked shop, and the programs that talk to it."""
import atexit
import contextlib
import csv
import http.client
import io
import json
import os
import random
import shutil
import signal
import socket
import sqlite3
import statistics
import subprocess
import sys
import threading
import time

task, program, top, work = sys.argv[1:5]
words = sys.argv[5:]
STARTED = []
signal.signal(signal.SIGTERM, lambda *_: sys.exit(1))
# No server outlives this program.
atexit.register(lambda: [run.terminate() for run in STARTED])
SETTINGS = {**os.environ, "MALLOC_TRIM_THRESHOLD_": "268435456"}
MONTH = '{"fields":["orders.created_month","orders.total"]}'
FRESH = '{"fields":["orders.created_month","orders.total"],"fresh":true}'
JSON = "application/json"


def project(name, model=None):
    """A folder with the worked shop, without its data files, which a server doesn't read."""
    folder = f"{work}/{name}"
    shutil.copytree(f"{top}/examples/shop", folder, ignore=shutil.ignore_patterns("data", "*.json", "ann.csv", "by_*.csv"))
    if model is not None:
        with open(f"{folder}/shop.model.lkml", "w") as file:
            file.write(model)
    return folder


class Server:
    """`lookd serve` at a free port, from its start to its end."""

    def __init__(self, folder, workers=4):
        begun = time.perf_counter()
        self.run = subprocess.Popen([program, "serve", folder, "127.0.0.1:0", str(workers)], stdin=subprocess.DEVNULL,
                                    stdout=subprocess.DEVNULL, stderr=subprocess.PIPE, text=True, env=SETTINGS)
        STARTED.append(self.run)
        said = [self.run.stderr.readline(), self.run.stderr.readline()]
        self.opening = time.perf_counter() - begun
        assert said[0] == f"lookd: serving {folder}\n", said
        assert said[1].startswith("lookd: listening on 127.0.0.1:"), said
        self.port = int(said[1].rsplit(":", 1)[1])

    def memory(self):
        with open(f"/proc/{self.run.pid}/status") as file:
            return next(int(line.split()[1]) for line in file if line.startswith("VmRSS:"))

    def end(self, how=signal.SIGTERM):
        self.run.send_signal(how)
        return self.run.wait(timeout=30)


def request(path, body, user="all", method="POST"):
    return f"{method} {path} HTTP/1.1\r\nX-User: {user}\r\nContent-Length: {len(body)}\r\n\r\n{body}".encode()


def batch(table, number=0):
    with open(f"{top}/examples/shop/data/{table}.csv") as file:
        return file.read()


FILL = [(f"/load/{table}/replace/first-{table}", batch(table), "etl", "POST") for table in ("users", "orders", "items")]
SESSION = FILL + [
    ("/query/orders", MONTH, "all", "POST"),
    ("/query/orders", FRESH, "all", "POST"),
    ("/check", "", "etl", "POST"),
    ("/query/orders", MONTH, "all", "POST"),
    ("/query/orders", MONTH, "ann", "POST"),
    ("/query/orders", '{"fields":["orders.id","users.region"],"format":"csv"}', "all", "POST"),
    ("/query/orders", '{"fields":["orders.nope"]}', "all", "POST"),
    ("/query/orders", '{"fields":[', "all", "POST"),
    ("/query/nope", MONTH, "all", "POST"),
    ("/query/orders", MONTH, "zed", "POST"),
    ("/query/orders", MONTH, "eve", "POST"),
    ("/load/orders/append/8", "id,total\n20,x\n", "etl", "POST"),
    ("/load/orders/append/9", "id,total\n20,1\n20,2\n", "etl", "POST"),
    ("/load/orders/append/10", "id,total\n20,1\n", "all", "POST"),
    ("/load/orders/append/11", "id,user_id,status,created_at,total\n13,2,complete,2024-03-01 00:00:00,20\n", "etl", "POST"),
    ("/load/orders/append/11", "", "etl", "POST"),
    ("/query/orders", FRESH, "all", "POST"),
    ("/query/orders", MONTH, "all", "POST"),
    ("/nowhere", "", "all", "POST"),
    ("/query/orders", "", "all", "GET"),
]


def read_reply(stream):
    """The status, the type and the body of the next reply, or None where there is none."""
    line = stream.readline()
    if not line:
        return None
    fields = {}
    while (field := stream.readline()) != b"\r\n":
        if not field.endswith(b"\r\n"):
            return None
        name, value = field.decode().rstrip("\r\n").split(": ", 1)
        fields[name.lower()] = value
    body = stream.read(int(fields["content-length"]))
    if len(body) < int(fields["content-length"]):
        return None
    return int(line.split()[1]), fields.get("content-type"), body.decode()


def by_script(folder, session):
    requests = b"".join(request(path, body, user, method) for path, body, user, method in session)
    ran = subprocess.run([program, "script", folder], input=requests, stdout=subprocess.PIPE, env=SETTINGS)
    assert ran.returncode == 0, ran.returncode
    stream = io.BytesIO(ran.stdout)
    return [read_reply(stream) for _ in session]


def by_socket(port, session):
    with socket.create_connection(("127.0.0.1", port)) as link, link.makefile("rb") as stream:
        told = []
        for path, body, user, method in session:
            link.sendall(request(path, body, user, method))
            told.append(read_reply(stream))
        return told


def by_client(port, session):
    link = http.client.HTTPConnection("127.0.0.1", port)
    told = []
    for path, body, user, method in session:
        link.request(method, path, body, {"X-User": user})
        reply = link.getresponse()
        told.append((reply.status, reply.headers.get("Content-Type"), reply.read().decode()))
    link.close()
    return told


def by_requests(port, session):
    import requests

    told = []
    with requests.Session() as client:
        for path, body, user, method in session:
            reply = client.request(method, f"http://127.0.0.1:{port}{path}", data=body, headers={"X-User": user})
            told.append((reply.status_code, reply.headers.get("Content-Type"), reply.text))
    return told


def by_curl(port, session):
    told = []
    for path, body, user, method in session:
        ran = subprocess.run(["curl", "-s", "-X", method, "-H", f"X-User: {user}", "--data-binary", body, "-w",
                              "\n%{http_code} %{content_type}", f"http://127.0.0.1:{port}{path}"], stdout=subprocess.PIPE, text=True)
        said, code = ran.stdout.rsplit("\n", 1)
        code, kind = (code + " ").split(" ", 1)
        told.append((int(code), kind.strip() or None, said))
    return told


def nginx(folder, server):
    """An nginx with these lines for its server, at the port of the file `port`."""
    os.makedirs(f"{folder}/tmp", exist_ok=True)
    with socket.socket() as free:
        free.bind(("127.0.0.1", 0))
        port = free.getsockname()[1]
    with open(f"{folder}/nginx.conf", "w") as file:
        file.write(f"""user root; worker_processes 4; daemon off; pid {folder}/pid; error_log {folder}/errors;
events {{ worker_connections 1024; }}
http {{ access_log off; keepalive_requests 100000000; default_type {JSON};
  client_body_temp_path {folder}/tmp/a; proxy_temp_path {folder}/tmp/b; fastcgi_temp_path {folder}/tmp/c;
  uwsgi_temp_path {folder}/tmp/d; scgi_temp_path {folder}/tmp/e;
  server {{ listen 127.0.0.1:{port}; {server} }} }}
""")
    run = subprocess.Popen(["nginx", "-c", f"{folder}/nginx.conf"], stdin=subprocess.DEVNULL, stdout=subprocess.DEVNULL, stderr=subprocess.DEVNULL)
    STARTED.append(run)
    for _ in range(1000):
        try:
            socket.create_connection(("127.0.0.1", port)).close()
            return run, port
        except ConnectionRefusedError:
            time.sleep(0.01)
    raise SystemExit("nginx doesn't start")


def clients():
    """Each client is told what `script` tells of the same requests, over a new store each."""
    wanted = by_script(project("script"), SESSION)
    ways = {"a socket": by_socket, "http.client": by_client, "curl": by_curl}
    try:
        import requests  # noqa: F401

        ways["requests"] = by_requests
    except ImportError:
        print("requests is not installed")
    for name, way in ways.items():
        server = Server(project(name.replace(" ", "")))
        told = way(server.port, SESSION)
        server.end()
        for asked, one, other in zip(SESSION, told, wanted):
            assert one == other, (name, asked, one, other)
        print(f"{name}: {len(told)} replies as script's")
    if shutil.which("nginx"):
        server = Server(project("proxied"))
        gate, port = nginx(f"{work}/gate", f"location / {{ proxy_pass http://127.0.0.1:{server.port}; }}")
        told = by_client(port, SESSION)
        gate.terminate()
        gate.wait()
        server.end()
        assert told == wanted, [pair for pair in zip(SESSION, told, wanted) if pair[1] != pair[2]]
        print(f"http.client through nginx: {len(told)} replies as script's")


def ended(folder, *rest):
    ran = subprocess.run([program, "serve", folder, *rest], stdin=subprocess.DEVNULL, stdout=subprocess.PIPE, stderr=subprocess.PIPE,
                         text=True, timeout=60, env=SETTINGS)
    return ran.returncode, ran.stdout


def faults():
    """Words, addresses, projects, stores and peers that are not as they should be."""
    folder = project("faults")
    with socket.socket() as other:
        other.bind(("127.0.0.1", 0))
        other.listen()
        taken = f"127.0.0.1:{other.getsockname()[1]}"
        for address, status in ((taken, 3), ("", 3), ("127.0.0.1", 3), ("127.0.0.1:http", 3)):
            assert ended(folder, address, "2") == (status, ""), (address, ended(folder, address, "2"))
    for rest in ((), ("127.0.0.1:0",), ("127.0.0.1:0", "0"), ("127.0.0.1:0", "17"), ("127.0.0.1:0", "01"), ("127.0.0.1:0", "1", "1")):
        assert ended(folder, *rest)[0] == 2, rest
    assert ended(project("faulty", "view: a { dimension: b { sql: x } }"), "127.0.0.1:0", "1") == (1, "R3 shop.model.lkml 25 - -\n")
    stores = project("stores")
    os.mkdir(f"{stores}/store.db")
    assert ended(stores, "127.0.0.1:0", "1") == (5, "")
    os.rmdir(f"{stores}/store.db")
    server = Server(stores, 1)
    assert ended(stores, "127.0.0.1:0", "1") == (5, ""), "a store that another server has open"
    by_socket(server.port, FILL)
    server.end()
    db = sqlite3.connect(f"{stores}/store.db")
    db.execute("UPDATE chunks SET body = ? WHERE target = 'items'", (b"id,nope",))
    db.commit()
    db.close()
    told = ended(stores, "127.0.0.1:0", "1")
    assert told == (1, "O1 items 0 L3 nope\n"), told
    db = sqlite3.connect(f"{stores}/store.db")
    db.execute("UPDATE state SET version = 9")
    db.commit()
    db.close()
    assert ended(stores, "127.0.0.1:0", "1") == (5, "")
    print("words, addresses, projects and stores: each ends with its status")
    server = Server(folder, 2)
    whole = request("/query/orders", MONTH)
    for cut in (1, 20, whole.index(b"{") + 3):
        with socket.create_connection(("127.0.0.1", server.port)) as link:
            link.sendall(whole[:cut])
    for _ in range(20):
        link = socket.create_connection(("127.0.0.1", server.port))
        link.sendall(whole * 50)
        link.close()
    for piece in (b"\0", b"GET / HTTP/1.1\r\n\r\n", b"POST / HTTP/1.1\r\n" + b"a: b\r\n" * 70 + b"\r\n", b"x" * 20000):
        with socket.create_connection(("127.0.0.1", server.port)) as link:
            # The server may have answered and closed before all of it is sent.
            with contextlib.suppress(OSError):
                link.sendall(piece)
                link.shutdown(socket.SHUT_WR)
                link.makefile("rb").read()
    told = by_socket(server.port, [("/query/orders", FRESH, "all", "POST")])
    assert told[0][0] == 200, told
    with socket.create_connection(("127.0.0.1", server.port)):
        told = by_socket(server.port, [("/query/orders", FRESH, "all", "POST")])
        assert told[0][0] == 200, told
    server.end()
    print("peers that leave in a head, in a body and before their replies, and heads that can't be read: the next is answered")


def signals():
    """SIGTERM and SIGINT end the server, and what it acknowledged is there at the next start."""
    for how in (signal.SIGTERM, signal.SIGINT, signal.SIGKILL):
        folder = project(f"signal{int(how)}")
        server = Server(folder, 2)
        by_socket(server.port, FILL)
        assert server.end(how) == -how
        server = Server(folder, 2)
        told = by_socket(server.port, [("/query/orders", FRESH, "all", "POST")])
        assert json.loads(told[0][2])["rows"] == [["2024-01", "100"], ["2024-02", "80.5"]], told
        server.end()
    print("SIGTERM, SIGINT and SIGKILL: what was acknowledged is there at the next start")


def kills():
    """Kills at moments of a fixed seed while four connections load: each load that was acknowledged is there, none by half."""
    count, seed = int(words[0]) if words else 100, int(words[1]) if words[1:] else 28
    rng = random.Random(seed)
    folder = project("kills")
    acknowledged, ahead, lost = {}, 0, 0
    number = 0
    for kill in range(count):
        server = Server(folder, 4)
        stop = threading.Event()

        def load(own):
            with socket.create_connection(("127.0.0.1", server.port)) as link, link.makefile("rb") as stream:
                for turn in range(10**6):
                    name = f"k{kill}-{own}-{turn}"
                    rows = 1 + turn % 7
                    keys = [kill * 10**6 + own * 10**5 + turn * 10 + row for row in range(rows)]
                    body = "id,price\n" + "".join(f"{key},1\n" for key in keys)
                    try:
                        link.sendall(request(f"/load/items/append/{name}", body, "etl"))
                        reply = read_reply(stream)
                    except OSError:
                        return
                    if reply is None or stop.is_set():
                        return
                    assert reply[0] == 200, reply
                    acknowledged[name] = (json.loads(reply[2])["snapshot"], rows)

        threads = [threading.Thread(target=load, args=(own,)) for own in range(4)]
        for thread in threads:
            thread.start()
        time.sleep(rng.uniform(0, 0.4))
        server.run.send_signal(signal.SIGKILL)
        server.run.wait()
        stop.set()
        for thread in threads:
            thread.join()
        db = sqlite3.connect(f"{folder}/store.db")
        assert db.execute("PRAGMA integrity_check").fetchall() == [("ok",)]
        held = {name: (at, rows) for name, at, rows in db.execute("SELECT id, number, rows FROM ids")}
        chunks = dict(db.execute("SELECT number, body FROM chunks"))
        [(number,)] = db.execute("SELECT number FROM state").fetchall()
        db.close()
        lost += sum(held.get(name) != saved for name, saved in acknowledged.items())
        assert sorted(at for at, _ in held.values()) == list(range(1, number + 1)) == sorted(chunks), number
        assert all(chunks[at].count(b"\n") == rows + 1 for at, rows in held.values())
        ahead = len(held) - len(acknowledged)
    server = Server(folder, 1)
    told = by_socket(server.port, [("/query/orders", '{"fields":["items.count"],"fresh":true}', "all", "POST")])
    server.end()
    print(f"{count} kills by seed {seed}: {len(acknowledged)} loads acknowledged, {lost} lost, none by half; {ahead} were there that"
          f" nobody was told of; the number is {number}; opened again, a query is answered {told[0][0]}")
    assert lost == 0


def wrk(port, connections, lua, seconds):
    ran = subprocess.run(["wrk", "-t", "2", "-c", str(connections), "-d", f"{seconds}s", "-s", lua, f"http://127.0.0.1:{port}/file"],
                         stdout=subprocess.PIPE, text=True)
    assert "Non-2xx" not in ran.stdout and "Socket errors" not in ran.stdout, ran.stdout
    return float(next(line.split()[1] for line in ran.stdout.splitlines() if line.startswith("Requests/sec")))


def rate():
    """Replies a second over eight connections, beside nginx with a static file of the same size, in turns."""
    seconds = int(words[0]) if words else 5
    server = Server(project("rate"), 8)
    by_socket(server.port, SESSION[:3] + [("/check", "", "etl", "POST")])
    body = by_socket(server.port, [("/query/orders", MONTH, "all", "POST")])[0][2]
    os.makedirs(f"{work}/static")
    with open(f"{work}/static/file", "w") as file:
        file.write(body)
    other, port = nginx(f"{work}/other", f"root {work}/static; location / {{ }}")
    with open(f"{work}/post.lua", "w") as file:
        file.write(f"wrk.method = 'POST'\nwrk.path = '/query/orders'\nwrk.headers['X-User'] = 'all'\nwrk.body = '{MONTH}'\n")
    with open(f"{work}/get.lua", "w") as file:
        file.write("wrk.method = 'GET'\n")
    ours, theirs = [], []
    for _ in range(5):
        ours.append(wrk(server.port, 8, f"{work}/post.lua", seconds))
        theirs.append(wrk(port, 8, f"{work}/get.lua", seconds))
    other.terminate()
    server.end()
    one, two = statistics.median(ours), statistics.median(theirs)
    print(f"replies of {len(body)} bytes a second over 8 connections, 8 workers: {one:.0f}; nginx with a file of that size, 4 processes:"
          f" {two:.0f}; ratio {one / two:.2f}")


def tails():
    """The slowest of a hundred replies of two connections, alone and beside a load and a rebuilding check each second."""
    seconds = int(words[0]) if words else 10
    server = Server(project("tails"), 4)
    by_socket(server.port, FILL)
    rows = "".join(f"{key},1,open,2024-0{1 + key % 9}-0{1 + key % 9} 00:00:00,{key % 100}\n" for key in range(100, 50_100))
    by_socket(server.port, [("/load/orders/append/many", "id,user_id,status,created_at,total\n" + rows, "etl", "POST"), ("/check", "", "etl", "POST")])

    def measured(times, stop):
        asked = request("/query/orders", MONTH)
        with socket.create_connection(("127.0.0.1", server.port)) as link, link.makefile("rb") as stream:
            link.setsockopt(socket.IPPROTO_TCP, socket.TCP_NODELAY, 1)
            for _ in range(99_000):
                if stop.is_set():
                    return
                begun = time.perf_counter()
                link.sendall(asked)
                assert read_reply(stream)[0] == 200
                times.append(time.perf_counter() - begun)
                time.sleep(0.001)

    def change(stop):
        with socket.create_connection(("127.0.0.1", server.port)) as link, link.makefile("rb") as stream:
            turn = 0
            while not stop.wait(1):
                turn += 1
                body = f"id,user_id,status,created_at,total\n{10**6 + turn},1,open,2024-01-01 00:00:00,1\n"
                link.sendall(request(f"/load/orders/append/t{turn}", body, "etl"))
                assert read_reply(stream)[0] == 200
                link.sendall(request("/check", "", "etl"))
                told = read_reply(stream)
                assert json.loads(told[2])["built"] == ["nightly"], told

    found = []
    for others in ((), (change,)):
        times, stop = [], threading.Event()
        threads = [threading.Thread(target=measured, args=(times, stop)) for _ in range(2)]
        threads += [threading.Thread(target=other, args=(stop,)) for other in others]
        for thread in threads:
            thread.start()
        time.sleep(seconds)
        stop.set()
        for thread in threads:
            thread.join()
        times.sort()
        found.append(times[len(times) * 99 // 100])
    server.end()
    print(f"the 99th of a hundred replies to two connections: {found[0] * 1e6:.0f} us alone, {found[1] * 1e6:.0f} us beside a load and a"
          f" rebuilding check each second over 50,000 orders; ratio {found[1] / found[0]:.2f}")


def memory():
    """What the process holds after 1,000 replies and after 100,000."""
    server = Server(project("memory"), 4)
    by_socket(server.port, FILL + [("/check", "", "etl", "POST")])
    asked = request("/query/orders", MONTH) * 100
    held, replies = {}, 0
    for connection in range(10):
        with socket.create_connection(("127.0.0.1", server.port)) as link, link.makefile("rb") as stream:
            for _ in range(100):
                link.sendall(asked)
                for _ in range(100):
                    assert read_reply(stream)[0] == 200
                replies += 100
                held.setdefault(replies, server.memory())
    server.end()
    print(f"memory after 1,000 replies: {held[1000]} KB; after 100,000: {held[100_000]} KB")


def restart():
    """The opening over 1,000 batches of 16 KB, beside Python's reading of the same store."""
    folder = project("restart")
    server = Server(folder, 1)
    with socket.create_connection(("127.0.0.1", server.port)) as link, link.makefile("rb") as stream:
        for turn in range(1000):
            body = "id,order_id,price\n" + "".join(f"{turn * 1000 + row},{row},{row % 100}.25\n" for row in range(920))
            link.sendall(request(f"/load/items/append/b{turn}", body, "etl"))
            assert read_reply(stream)[0] == 200
    server.end()

    def read():
        begun = time.perf_counter()
        db = sqlite3.connect(f"{folder}/store.db")
        rows = 0
        for (body,) in db.execute("SELECT body FROM chunks ORDER BY number"):
            rows += sum(1 for _ in csv.reader(io.StringIO(body.decode()))) - 1
        list(db.execute("SELECT id, number, rows FROM ids ORDER BY number"))
        db.close()
        return time.perf_counter() - begun, rows

    ours, theirs = [], []
    for _ in range(5):
        server = Server(folder, 1)
        ours.append(server.opening)
        server.end()
        theirs.append(read()[0])
    size = os.path.getsize(f"{folder}/store.db")
    print(f"an opening over 1,000 batches, {read()[1]} rows, a store of {size >> 20} MB: {statistics.median(ours):.2f} s until it listens;"
          f" Python reads the store and its records in {statistics.median(theirs):.2f} s; ratio {statistics.median(ours) / statistics.median(theirs):.2f}")


{"clients": clients, "faults": faults, "signals": signals, "kills": kills, "rate": rate, "tails": tails, "memory": memory, "restart": restart}[task]()
