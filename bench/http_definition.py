# What the first item of a stream is, by the definition and not by a reader: the shortest front of the bytes that is a whole
# head, or that no further bytes make one, or that is too long, found by expressions for both. For each line of the standard
# input, a stream in hexadecimal digits, it prints the item and how many bytes are left behind it, and an empty line for a
# stream of more bytes than the first word says.
import re
import sys

END = rb"\r?\n"
TOKEN = rb"[!#$%&'*+\-.^_`|~0-9A-Za-z]"
VISIBLE = rb"[\x21-\x7e\x80-\xff]"
VALUE = rb"[\t\x20-\x7e\x80-\xff]"


def front(*pieces):
    """The fronts of these pieces in a row, of which each may be cut."""
    text = b""
    for piece in reversed(pieces):
        text = b"(?:%s)?" % (piece + text)
    return text


START = rb"(?:%s)*(?P<method>%s+) (?P<target>%s+) HTTP/1\.(?P<minor>[01])%s" % (END, TOKEN, VISIBLE, END)
FIELD = rb"%s+:%s*%s" % (TOKEN, VALUE, END)
WHOLE = re.compile(START + rb"(?P<fields>(?:%s)*)" % FIELD + END)
NAMED = re.compile(rb"(%s+):(%s*)%s" % (TOKEN, VALUE, END))
# A front of a head: of its first line, or whole lines and a front of one more.
FIRST = rb"(?:%s)*(?:\r|%s+(?: %s*| (?P<asked>%s+) %s)?)?" % (
    END, TOKEN, VISIBLE, VISIBLE, front(b"H", b"T", b"T", b"P", b"/", b"1", rb"\.", b"[01]", b"\r"))
LATER = rb"(?:%s)*(?:\r|%s+(?::%s*\r?)?)?" % (FIELD, TOKEN, VALUE)
OPEN = re.compile(FIRST)
BEGUN = re.compile(START + LATER)


def is_utf8(text):
    try:
        text.decode()
    except UnicodeDecodeError:
        return False
    return True


def may_become(bytes):
    found = OPEN.fullmatch(bytes)
    if found and (found["asked"] is None or is_utf8(found["asked"])):
        return True
    found = BEGUN.fullmatch(bytes)
    return bool(found) and is_utf8(found["target"])


def whole(bytes):
    found = WHOLE.fullmatch(bytes)
    return found if found and is_utf8(found["target"]) else None


def is_over(bytes):
    lines = bytes.split(b"\n")[:-1]
    return len(bytes) >= 16384 or sum(line not in (b"", b"\r") for line in lines) > 65


def is_open(bytes):
    return not whole(bytes) and not is_over(bytes) and may_become(bytes)


def values(fields, name):
    return [value.strip(b" \t") for other, value in fields if other.lower() == name]


def after(head, rest):
    fields = NAMED.findall(head["fields"])
    options = [o.strip(b" \t").lower() for value in values(fields, b"connection") for o in value.split(b",")]
    close = "true" if head["minor"] == b"0" or b"close" in options else "false"
    lengths = values(fields, b"content-length")
    if any(not re.fullmatch(rb"[0-9]{1,10}", value) for value in lengths) or len({int(v) for v in lengths}) > 1:
        return "H1", rest
    if values(fields, b"transfer-encoding"):
        return "H2", rest
    is_post = head["method"] == b"POST"
    if is_post and not lengths:
        return "H2", rest
    count = int(lengths[0]) if lengths else 0
    if count > 16777216:
        return f"H3 {count}", rest
    if len(rest) < count:
        return "truncated", b""
    target = head["target"]
    query = re.fullmatch(rb"/query/([A-Za-z0-9_]+)", target)
    load = re.fullmatch(rb"/load/([A-Za-z0-9_]+)/(append|replace)/([A-Za-z0-9_.\-]{1,64})", target)
    if target == b"/check":
        asked = "check"
    elif query:
        asked = f"query {len(query[1])}"
    elif load:
        asked = f"load {len(load[1])} {'true' if load[2] == b'replace' else 'false'} {len(load[3])}"
    else:
        return f"H4 {close}", rest[count:]
    if not is_post:
        return f"H5 {close}", rest[count:]
    users = values(fields, b"x-user")
    user = users[0] if len(users) == 1 and is_utf8(users[0]) else b""
    return f"{asked} by {len(user)}, {count} bytes, {close}", rest[count:]


def first_item(bytes):
    if is_open(bytes):
        return ("truncated" if bytes else "end"), b""
    # Each front of an open one is open: the shortest that is not is found by halves.
    shortest, longest = 0, len(bytes)
    while longest - shortest > 1:
        middle = (shortest + longest) // 2
        if is_open(bytes[:middle]):
            shortest = middle
        else:
            longest = middle
    head, rest = bytes[:longest], bytes[longest:]
    if whole(head):
        return after(whole(head), rest)
    return ("H6" if is_over(head) else "H1"), rest


most = int(sys.argv[1])
for line in sys.stdin:
    stream = bytes.fromhex(line)
    if len(stream) > most:
        print()
    else:
        item, rest = first_item(stream)
        print(f"{item}, {len(rest)} left")
