# Shops for measurements, and requests to a server over one: for bench/builds.sh and bench/rollups.sh.
import pathlib
import subprocess
import time

SHOP = pathlib.Path(__file__).resolve().parent.parent / "examples/shop"
MODEL = (SHOP / "shop.model.lkml").read_text()
BY_DAY = MODEL[MODEL.index("  aggregate_table: by_day"):MODEL.index("  aggregate_table: by_price")]
BY_PRICE = MODEL[MODEL.index("  aggregate_table: by_price"):MODEL.rindex("}")]


def project(work, name, count, tables="", more=""):
    """A shop of so many orders, with these aggregate tables, and more LookML behind its model."""
    folder = work / name
    (folder / "data").mkdir(parents=True)
    (folder / "views").mkdir()
    for file in ("schema.csv", "users.csv", "views/shop.view.lkml"):
        (folder / file).write_text((SHOP / file).read_text())
    bare = MODEL.replace(BY_DAY, "").replace(BY_PRICE, "")
    (folder / "shop.model.lkml").write_text(bare[:bare.rindex("}")] + tables + "}\n" + more)
    users = 1 + count // 10
    with open(folder / "data/users.csv", "w") as out:
        out.write("id,region\n" + "".join(f"{u},{('US', 'EU', 'APAC')[u % 3]}\n" for u in range(1, users + 1)))
    with open(folder / "data/orders.csv", "w") as out:
        out.write("id,user_id,status,created_at,total\n")
        for i in range(1, count + 1):
            moment = time.strftime("%Y-%m-%d %H:%M:%S", time.gmtime(1704067200 + 18000 * i % 31622400))
            out.write(f"{i},{1 + 17 * i % users},{'complete' if i % 4 else 'open'},{moment},{i % 100}.5\n")
    with open(folder / "data/items.csv", "w") as out:
        out.write("id,order_id,price\n")
        item = 0
        for i in range(1, count + 1):
            for k in range(1, i % 4 + 1):
                item += 1
                out.write(f"{item},{i},{k + i % 50}.25\n")
    return folder


def post(target, user, body):
    return f"POST {target} HTTP/1.1\r\nX-User: {user}\r\nContent-Length: {len(body)}\r\n\r\n{body}"


def seconds(program, folder, requests):
    """The least time of three sessions of these requests, and the replies of the last."""
    best = None
    for _ in range(3):
        begun = time.monotonic()
        ran = subprocess.run([program, "script", folder], input="".join(requests).encode(), stdout=subprocess.PIPE, check=True)
        taken = time.monotonic() - begun
        best = taken if best is None else min(best, taken)
    return best, ran.stdout.decode()


def each(program, folder, requests, others, count):
    """What each of so many requests takes that one session has and the other lacks, in milliseconds."""
    with_them, replies = seconds(program, folder, requests)
    without, _ = seconds(program, folder, others)
    return 1000 * (with_them - without) / count, replies
