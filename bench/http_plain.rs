// Requests in plain Rust, by the grammar of docs/http-api.md: a reader of one byte at a time that follows where in the head
// it stands. `time` times 100,000 requests, `make SEED COUNT` prints so many random and changed heads, one a line in
// hexadecimal digits, and `judge` prints for each such line of the standard input what the stream's first item is, and how
// many bytes are left behind it.
use std::io::{BufRead, Write};
use std::time::Instant;

const HEAD_LIMIT: usize = 16_384;
const BODY_LIMIT: u64 = 16_777_216;

#[derive(Clone, Copy, PartialEq)]
enum Place {
    Blank,
    BlankReturn,
    Method,
    Target,
    Version,
    LineReturn,
    Line,
    Name,
    Value,
    ValueReturn,
    Last,
    Whole,
}

struct Link<'a> {
    left: &'a [u8],
}

impl Link<'_> {
    fn pull(&mut self, into: &mut [u8]) -> usize {
        let count = into.len().min(self.left.len());
        into[..count].copy_from_slice(&self.left[..count]);
        self.left = &self.left[count..];
        count
    }
}

fn is_token(b: u8) -> bool {
    b.is_ascii_alphanumeric() || b"!#$%&'*+-.^_`|~".contains(&b)
}

fn is_visible(b: u8) -> bool {
    b > b' ' && b != 0x7f
}

fn is_value(b: u8) -> bool {
    b == b'\t' || (b >= b' ' && b != 0x7f)
}

// A head so far: where it stands, where its parts are, and how many of its lines that are not empty have ended.
struct Head {
    bytes: Vec<u8>,
    place: Place,
    method: (usize, usize),
    target: (usize, usize),
    begun: usize,
    lines: usize,
    empty: bool,
    colon: usize,
    fields: Vec<(usize, usize, usize, usize)>,
}

impl Head {
    fn new() -> Head {
        Head {
            bytes: Vec::with_capacity(HEAD_LIMIT),
            place: Place::Blank,
            method: (0, 0),
            target: (0, 0),
            begun: 0,
            lines: 0,
            empty: true,
            colon: 0,
            fields: Vec::with_capacity(64),
        }
    }

    fn clear(&mut self) {
        self.bytes.clear();
        self.fields.clear();
        self.place = Place::Blank;
        self.lines = 0;
        self.empty = true;
    }

    // Follows a byte; false where no head has it here.
    fn push(&mut self, b: u8) -> bool {
        let at = self.bytes.len();
        self.bytes.push(b);
        if b == b'\n' {
            if !self.empty {
                self.lines += 1;
            }
            self.empty = true;
        } else if b != b'\r' || !self.empty || (at > 0 && self.bytes[at - 1] == b'\r') {
            self.empty = false;
        }
        let next = match self.place {
            Place::Blank if b == b'\n' => Place::Blank,
            Place::Blank if b == b'\r' => Place::BlankReturn,
            Place::BlankReturn if b == b'\n' => Place::Blank,
            Place::Blank if is_token(b) => {
                self.begun = at;
                Place::Method
            }
            Place::Method if b == b' ' => {
                self.method = (self.begun, at);
                self.begun = at + 1;
                Place::Target
            }
            Place::Method if is_token(b) => Place::Method,
            Place::Target if b == b' ' => {
                self.target = (self.begun, at);
                if self.begun == at || std::str::from_utf8(&self.bytes[self.begun..at]).is_err() {
                    return false;
                }
                self.begun = at + 1;
                Place::Version
            }
            Place::Target if is_visible(b) => Place::Target,
            Place::Version => {
                let count = at - self.begun;
                match (count, b) {
                    (0..=6, b) if b == b"HTTP/1."[count] => Place::Version,
                    (7, b'0' | b'1') => Place::Version,
                    (8, b'\n') => Place::Line,
                    (8, b'\r') => Place::LineReturn,
                    _ => return false,
                }
            }
            Place::LineReturn if b == b'\n' => Place::Line,
            Place::Line if b == b'\n' => Place::Whole,
            Place::Line if b == b'\r' => Place::Last,
            Place::Last if b == b'\n' => Place::Whole,
            Place::Line if is_token(b) => {
                self.begun = at;
                Place::Name
            }
            Place::Name if b == b':' => {
                self.colon = at;
                Place::Value
            }
            Place::Name if is_token(b) => Place::Name,
            Place::Value | Place::ValueReturn if b == b'\n' => {
                let end = if self.place == Place::Value { at } else { at - 1 };
                self.fields.push((self.begun, self.colon, self.colon + 1, end));
                Place::Line
            }
            Place::Value if b == b'\r' => Place::ValueReturn,
            Place::Value if is_value(b) => Place::Value,
            _ => return false,
        };
        self.place = next;
        true
    }

    fn minor(&self) -> u8 {
        self.bytes[self.target.1 + 8]
    }

    fn named<'a>(&'a self, name: &'a str) -> impl Iterator<Item = &'a [u8]> + 'a {
        self.fields
            .iter()
            .filter(move |f| self.bytes[f.0..f.1].eq_ignore_ascii_case(name.as_bytes()))
            .map(move |f| trimmed(&self.bytes[f.2..f.3]))
    }

    fn closes(&self) -> bool {
        let asked = |value: &[u8]| value.split(|b| *b == b',').any(|o| trimmed(o).eq_ignore_ascii_case(b"close"));
        self.minor() == b'0' || self.named("connection").any(asked)
    }

    fn length(&self) -> Result<u64, String> {
        let mut stated = None;
        for value in self.named("content-length") {
            if value.is_empty() || value.len() > 10 || !value.iter().all(u8::is_ascii_digit) {
                return Err("H1".to_string());
            }
            let count = value.iter().fold(0u64, |n, d| n * 10 + u64::from(d - b'0'));
            if stated.is_some_and(|other| other != count) {
                return Err("H1".to_string());
            }
            stated = Some(count);
        }
        if self.named("transfer-encoding").next().is_some() {
            return Err("H2".to_string());
        }
        match stated {
            None if self.is_post() => Err("H2".to_string()),
            None => Ok(0),
            Some(count) if count > BODY_LIMIT => Err(format!("H3 {count}")),
            Some(count) => Ok(count),
        }
    }

    fn is_post(&self) -> bool {
        &self.bytes[self.method.0..self.method.1] == b"POST"
    }

    fn user(&self) -> Vec<u8> {
        let mut users = self.named("x-user");
        match (users.next(), users.next()) {
            (Some(user), None) if std::str::from_utf8(user).is_ok() => user.to_vec(),
            _ => Vec::new(),
        }
    }

    fn target(&self) -> Option<Target> {
        let target = &self.bytes[self.target.0..self.target.1];
        let is_name = |p: &[u8]| !p.is_empty() && p.iter().all(|b| b.is_ascii_alphanumeric() || *b == b'_');
        let is_id = |p: &[u8]| {
            (1..=64).contains(&p.len()) && p.iter().all(|b| b.is_ascii_alphanumeric() || b"_.-".contains(b))
        };
        let pieces: Vec<&[u8]> = target.split(|b| *b == b'/').collect();
        match pieces.as_slice() {
            [b"", b"check"] => Some(Target::Check),
            [b"", b"query", name] if is_name(name) => Some(Target::Query(name.to_vec())),
            [b"", b"load", table, b"append", id] if is_name(table) && is_id(id) => {
                Some(Target::Load(table.to_vec(), false, id.to_vec()))
            }
            [b"", b"load", table, b"replace", id] if is_name(table) && is_id(id) => {
                Some(Target::Load(table.to_vec(), true, id.to_vec()))
            }
            _ => None,
        }
    }
}

enum Target {
    Query(Vec<u8>),
    Load(Vec<u8>, bool, Vec<u8>),
    Check,
}

enum Item {
    Request { user: Vec<u8>, target: Target, body: Vec<u8>, close: bool },
    Refused(String),
}

fn trimmed(mut bytes: &[u8]) -> &[u8] {
    while let [b' ' | b'\t', rest @ ..] | [rest @ .., b' ' | b'\t'] = bytes {
        bytes = rest;
    }
    bytes
}

fn refused(text: &str) -> Item {
    Item::Refused(text.to_string())
}

fn read_request(link: &mut Link, head: &mut Head) -> Item {
    head.clear();
    while head.place != Place::Whole {
        let mut byte = [0];
        if link.pull(&mut byte) == 0 {
            return refused(if head.bytes.is_empty() { "end" } else { "truncated" });
        }
        let stands = head.push(byte[0]);
        if head.place == Place::Whole {
            break;
        }
        if head.bytes.len() >= HEAD_LIMIT || head.lines > 65 {
            return refused("H6");
        }
        if !stands {
            return refused("H1");
        }
    }
    let close = head.closes();
    let count = match head.length() {
        Ok(count) => count as usize,
        Err(fault) => return Item::Refused(fault),
    };
    let mut body = Vec::new();
    let mut piece = [0; 8192];
    while body.len() < count {
        let most = (count - body.len()).min(8192);
        let got = link.pull(&mut piece[..most]);
        if got == 0 {
            return refused("truncated");
        }
        body.extend_from_slice(&piece[..got]);
    }
    let Some(target) = head.target() else {
        return Item::Refused(format!("H4 {close}"));
    };
    if !head.is_post() {
        return Item::Refused(format!("H5 {close}"));
    }
    Item::Request { user: head.user(), target, body, close }
}

fn told(item: &Item, left: usize) -> String {
    match item {
        Item::Refused(text) => format!("{text}, {left} left"),
        Item::Request { user, target, body, close } => {
            let target = match target {
                Target::Check => "check".to_string(),
                Target::Query(name) => format!("query {}", name.len()),
                Target::Load(table, replaces, id) => format!("load {} {replaces} {}", table.len(), id.len()),
            };
            format!("{target} by {}, {} bytes, {close}, {left} left", user.len(), body.len())
        }
    }
}

// ---- heads to try

struct Numbers(u64);

impl Numbers {
    fn below(&mut self, bound: usize) -> usize {
        self.0 ^= self.0 << 13;
        self.0 ^= self.0 >> 7;
        self.0 ^= self.0 << 17;
        (self.0 % bound as u64) as usize
    }
}

const PIECES: [&[u8]; 44] = [
    b"POST ", b"GET ", b"/check", b"/query/a", b"/load/t/append/1", b" HTTP/1.1\r\n", b" HTTP/1.0\r\n", b" HTTP/1.1\n", b"\r\n", b"\n", b"\r",
    b"Content-Length: 0\r\n", b"Content-Length: 1\r\n", b"Content-Length:3", b"content-length: 03\n", b"Transfer-Encoding: chunked\r\n",
    b"X-User: a\r\n", b"x-user:\t\xff\r\n", b"Connection: close\r\n", b"connection: a, CLOSE\t,\r\n", b"a:", b"a: b\r\n", b":", b" ", b"\t", b"\0",
    b"\x7f", b"\xff", b"\xc3\xa9", b"HTTP/1.", b"1", b"0", b"\r\n\r\n", b"\n\n", b"abc", b"/", b"?", b"-", b"+1", b"16777217", b"99999999999",
    b"Content-Length: ", b"close", b",",
];

const WHOLE: [&[u8]; 6] = [
    b"POST /check HTTP/1.1\r\nContent-Length: 0\r\n\r\n",
    b"POST /query/a HTTP/1.1\r\nContent-Length: 2\r\n\r\n{}",
    b"GET /x HTTP/1.0\n\n",
    b"POST /load/t/replace/1 HTTP/1.1\nContent-Length:1\n\na",
    b"\r\nPOST /query/orders HTTP/1.1\r\nX-User: all\r\nConnection: keep-alive\r\nContent-Length: 27\r\n\r\n{\"fields\":[\"orders.total\"]}",
    b"GET /check HTTP/1.1\r\na:b\r\n\r\n",
];

fn head(numbers: &mut Numbers) -> Vec<u8> {
    let mut bytes = Vec::new();
    match numbers.below(8) {
        0 => (0..numbers.below(20)).for_each(|_| bytes.push(numbers.below(256) as u8)),
        1..=3 => (0..numbers.below(12)).for_each(|_| bytes.extend_from_slice(PIECES[numbers.below(PIECES.len())])),
        _ => bytes.extend_from_slice(WHOLE[numbers.below(WHOLE.len())]),
    }
    for _ in 0..numbers.below(4) {
        let at = numbers.below(bytes.len() + 1);
        match numbers.below(5) {
            0 if at < bytes.len() => bytes[at] = numbers.below(256) as u8,
            1 if at < bytes.len() => drop(bytes.remove(at)),
            2 => bytes.truncate(at),
            3 => bytes.insert(at, numbers.below(256) as u8),
            _ => {
                let piece = PIECES[numbers.below(PIECES.len())];
                bytes.splice(at..at, piece.iter().copied());
            }
        }
    }
    // Some are long: a piece many times over.
    if numbers.below(2000) == 0 {
        let at = numbers.below(bytes.len() + 1);
        let piece = PIECES[numbers.below(PIECES.len())].repeat(1 + numbers.below(6000));
        bytes.splice(at..at, piece);
    }
    bytes
}

fn make(seed: u64, count: usize) -> std::io::Result<()> {
    let mut numbers = Numbers(seed);
    let mut out = std::io::BufWriter::new(std::io::stdout().lock());
    for _ in 0..count {
        for b in head(&mut numbers) {
            write!(out, "{b:02x}")?;
        }
        writeln!(out)?;
    }
    out.flush()
}

fn judge() -> std::io::Result<()> {
    let mut out = std::io::BufWriter::new(std::io::stdout().lock());
    let mut head = Head::new();
    for line in std::io::stdin().lock().lines() {
        let bytes: Vec<u8> = line?.as_bytes().chunks(2).map(|p| u8::from_str_radix(std::str::from_utf8(p).unwrap(), 16).unwrap()).collect();
        let mut link = Link { left: &bytes };
        let item = read_request(&mut link, &mut head);
        writeln!(out, "{}", told(&item, link.left.len()))?;
    }
    out.flush()
}

// A request of 200 bytes, as curl sends one.
const REQUEST: &[u8] = b"POST /query/orders HTTP/1.1\r\nHost: localhost:8080\r\nUser-Agent: curl/8.5.0 (lookd's timings)\r\n\
    Accept: */*\r\nX-User: all\r\nContent-Type: application/json\r\nContent-Length: 27\r\n\r\n{\"fields\":[\"orders.total\"]}";

fn time() {
    assert_eq!(REQUEST.len(), 200);
    let all = REQUEST.repeat(100_000);
    let mut link = Link { left: std::hint::black_box(&all) };
    let mut head = Head::new();
    let begun = Instant::now();
    let (mut requests, mut bytes) = (0, 0);
    while let Item::Request { body, .. } = std::hint::black_box(read_request(&mut link, &mut head)) {
        requests += 1;
        bytes += body.len();
    }
    println!("plain Rust: {requests} requests of {} bytes, {} bytes of bodies: {} us", REQUEST.len(), bytes, begun.elapsed().as_micros());
}

fn main() -> std::io::Result<()> {
    let words: Vec<String> = std::env::args().collect();
    match words.get(1).map(String::as_str) {
        Some("make") => make(words[2].parse().unwrap(), words[3].parse().unwrap()),
        Some("judge") => judge(),
        _ => {
            time();
            Ok(())
        }
    }
}
