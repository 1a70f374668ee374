#!/bin/sh
# Times the reading of 100,000 requests of 200 bytes beside plain Rust (http_plain.rs), and of 100 heads of about 16,384 bytes of
# each of several kinds; then reads N random and changed heads (1,000,000 where no word says another), and compares each answer
# with plain Rust's, and those of at most 60 bytes with the definition's (http_definition.py). Each reading ends within 20
# minutes, or is stopped. A measurement, not a test: where `HTTP_TIMING` names the program it runs that, and else it builds it
# in a folder of its own, which proves it first.
heads=${1:-1000000}
here=$(cd "$(dirname "$0")" && pwd) || exit 1
crates='lk_val lk_postfix lk_types lk_io lk_http'
uses='lk_val lk_postfix lk_types lk_io thiserror arrayvec http httparse itoa lk_http'
. "$here/workspace.sh"
cat >"$work/crates/timing/src/main.rt" <<'END_OF_PROGRAM'
//! Times the reading of requests, or tells the first item of streams, as the lines of the standard input say.
#![tactic(auto)]

mod streams;
mod told;

use crate::streams::{bytes_of, link_over, stream};
use crate::told::told;
use lk_http::{Conn, Got, HttpFault, read_request};
use lk_io::{MemLink, Source};
use lk_val::{NoMemory, Text};
use std::alloc::Global;
use std::io;
use std::time::Instant;

fn next(alloc: Global, link: &mut MemLink, conn: &mut Conn) -> Result<Got, HttpFault> {
    read_request(alloc, link, conn)
}

fn pull(link: &mut MemLink, room: &mut [u8; 8192]) -> Option<usize> {
    link.pull(room).ok()
}

fn left_in(link: &mut MemLink) -> usize {
    let mut left = 0usize;
    let mut room = [0u8; 8192];
    for _ in 0..100_000 {
        match pull(link, &mut room) {
            Some(count) if count > 0 => left = left.saturating_add(count),
            _ => break,
        }
    }
    left
}

// How many requests of 200 bytes are read, and the bytes of their bodies.
fn count_requests(alloc: Global, link: &mut MemLink) -> Result<(usize, usize), NoMemory> {
    let mut conn = Conn::new(alloc)?;
    let mut requests = 0usize;
    let mut bytes = 0usize;
    for _ in 0..1_000_000 {
        match next(alloc, link, &mut conn) {
            Ok(Got::Req(request)) => {
                requests = requests.saturating_add(1);
                bytes = bytes.saturating_add(request.body.len());
            }
            _ => break,
        }
    }
    Ok((requests, bytes))
}

// Reads the first item of the same bytes 100 times.
fn repeat_head(alloc: Global, bytes: &[u8]) -> Result<u32, NoMemory> {
    let mut conn = Conn::new(alloc)?;
    let mut refused = 0u32;
    for _ in 0..100 {
        let mut link = link_over(alloc, bytes)?;
        if next(alloc, &mut link, &mut conn).is_err() {
            refused = refused.saturating_add(1);
        }
    }
    Ok(refused)
}

fn timed(rt: &HostRuntime, what: &str) -> io::Result<()> {
    let Ok(bytes) = stream(rt.alloc(), what) else {
        return Ok(());
    };
    let size = bytes.len();
    if what == "requests" {
        let Ok(mut link) = link_over(rt.alloc(), bytes.as_slice()) else {
            return Ok(());
        };
        let begun = Instant::now(rt)?;
        let found = count_requests(rt.alloc(), &mut link);
        let took = begun.elapsed(rt)?.as_micros();
        if let Ok((requests, bodies)) = found {
            println!(rt; "lk_http: {requests} requests of {size} bytes in all, {bodies} bytes of bodies: {took} us")?;
        }
    } else {
        let begun = Instant::now(rt)?;
        let refused = repeat_head(rt.alloc(), bytes.as_slice());
        let took = begun.elapsed(rt)?.as_micros();
        if let Ok(refused) = refused {
            println!(rt; "{what}: 100 heads of {size} bytes, {refused} refused: {took} us")?;
        }
    }
    Ok(())
}

fn first_of(alloc: Global, line: &str) -> Result<Text, NoMemory> {
    let bytes = bytes_of(alloc, line)?;
    let mut link = link_over(alloc, bytes.as_slice())?;
    let mut conn = Conn::new(alloc)?;
    let item = next(alloc, &mut link, &mut conn);
    told(alloc, &item, left_in(&mut link))
}

fn main(rt: HostRuntime) -> io::Result<()> {
    for line in rt.lines(rt.alloc()) {
        let line = line?;
        let line = line.as_str();
        match line.strip_prefix("time ") {
            Some(what) => timed(&rt, what)?,
            None => {
                if let Ok(text) = first_of(rt.alloc(), line) {
                    let text = text.as_str();
                    println!(rt; "{text}")?;
                }
            }
        }
    }
    Ok(())
}
END_OF_PROGRAM
cat >"$work/crates/timing/src/streams.rt" <<'END_OF_PROGRAM'
use lk_io::MemLink;
use lk_val::{Bytes, Items, NoMemory};
use std::alloc::Global;

// A request of 200 bytes, as curl sends one.
const REQUEST: &[u8] = b"POST /query/orders HTTP/1.1\r\nHost: localhost:8080\r\nUser-Agent: curl/8.5.0 (lookd's timings)\r\nAccept: */*\r\nX-User: all\r\nContent-Type: application/json\r\nContent-Length: 27\r\n\r\n{\"fields\":[\"orders.total\"]}";

const LINE: &[u8] = b"POST /check HTTP/1.1\r\n";

/// The stream of a name.
pub fn stream(alloc: Global, what: &str) -> Result<Bytes, NoMemory> {
    match what {
        "requests" => repeated(alloc, b"", REQUEST, 100_000),
        "short fields" => repeated(alloc, LINE, b"a:b\r\n", 65),
        "long fields" => repeated(alloc, LINE, LONG_FIELD, 63),
        "a target" => repeated(alloc, b"POST /", b"a", 16_378),
        "slashes of a target" => repeated(alloc, b"POST /", b"/", 16_378),
        "a value" => repeated(alloc, b"POST /check HTTP/1.1\r\na:", b"b", 16_360),
        "spaces of a value" => repeated(alloc, b"POST /check HTTP/1.1\r\na:", b" ", 16_360),
        "a name" => repeated(alloc, LINE, b"a", 16_362),
        "a method" => repeated(alloc, b"", b"A", 16_384),
        "line feeds" => repeated(alloc, b"", b"\n", 16_384),
        _ => repeated(alloc, b"", b"\r\n", 8_192),
    }
}

const LONG_FIELD: &[u8] = b"abcdefghijklmnopqrstuvwxyzabcdefghijklmnopqrstuvwxyz: bbbbbbbbbbbbbbbbbbbbbbbbbbbbbbbbbbbbbbbbbbbbbbbbbbbbbbbbbbbbbbbbbbbbbbbbbbbbbbbbbbbbbbbbbbbbbbbbbbbbbbbbbbbbbbbbbbbbbbbbbbbbbbbbbbbbbbbbbbbbbbbbbbbbbbbbbbbbbbbbbbbbbbbbbbbbbbbbbbbbbbbbbbbbbbbbbbbbbbbbbbbbbb\r\n";

fn repeated(alloc: Global, front: &[u8], piece: &[u8], count: u32) -> Result<Bytes, NoMemory> {
    let mut bytes = Bytes::from_slice(alloc, front)?;
    for _ in 0..count {
        bytes.append(piece)?;
    }
    Ok(bytes)
}

/// The bytes that hexadecimal digits write.
pub fn bytes_of(alloc: Global, digits: &str) -> Result<Bytes, NoMemory> {
    let mut bytes = Bytes::new(alloc);
    let mut rest = digits.as_bytes();
    for _ in 0..digits.len() {
        let [high, low, more @ ..] = rest else {
            break;
        };
        bytes.append(&[value(*high).wrapping_mul(16).wrapping_add(value(*low))])?;
        rest = more;
    }
    Ok(bytes)
}

fn value(digit: u8) -> u8 {
    match digit {
        b'0'..=b'9' => digit - b'0',
        b'a'..=b'f' => digit - b'a' + 10,
        _ => 0,
    }
}

/// A link that gives these bytes.
pub fn link_over(alloc: Global, bytes: &[u8]) -> Result<MemLink, NoMemory> {
    let bytes = Bytes::from_slice(alloc, bytes)?;
    MemLink::new(alloc, bytes, 0, Items::new(alloc), Items::new(alloc))
}
END_OF_PROGRAM
cat >"$work/crates/timing/src/told.rt" <<'END_OF_PROGRAM'
use lk_http::{Got, HttpFault, Request, Target};
use lk_val::{NoMemory, Text};
use std::alloc::Global;

/// An item and how many bytes are left behind it, as http_plain.rs and http_definition.py tell them.
pub fn told(alloc: Global, item: &Result<Got, HttpFault>, left: usize) -> Result<Text, NoMemory> {
    let item = match item {
        Ok(Got::End) => Text::from_str(alloc, "end")?,
        Ok(Got::Req(request)) => request_told(alloc, request)?,
        Err(fault) => fault_told(alloc, *fault)?,
    };
    let item = item.as_str();
    Ok(Text::from_string(format!(in alloc; "{item}, {left} left")?))
}

fn fault_told(alloc: Global, fault: HttpFault) -> Result<Text, NoMemory> {
    match fault {
        HttpFault::H1 => Text::from_str(alloc, "H1"),
        HttpFault::H2 => Text::from_str(alloc, "H2"),
        HttpFault::H3(count) => Ok(Text::from_string(format!(in alloc; "H3 {count}")?)),
        HttpFault::H4(close) => Ok(Text::from_string(format!(in alloc; "H4 {close}")?)),
        HttpFault::H5(close) => Ok(Text::from_string(format!(in alloc; "H5 {close}")?)),
        HttpFault::H6 => Text::from_str(alloc, "H6"),
        HttpFault::Truncated => Text::from_str(alloc, "truncated"),
        HttpFault::ReadFault | HttpFault::NoMemory => Text::from_str(alloc, "failed"),
    }
}

fn request_told(alloc: Global, request: &Request) -> Result<Text, NoMemory> {
    let target = target_told(alloc, &request.target)?;
    let (target, close) = (target.as_str(), request.close);
    let (user, body) = (request.user.as_bytes().len(), request.body.len());
    Ok(Text::from_string(format!(in alloc; "{target} by {user}, {body} bytes, {close}")?))
}

fn target_told(alloc: Global, target: &Target) -> Result<Text, NoMemory> {
    match target {
        Target::Check => Text::from_str(alloc, "check"),
        Target::Query(explore) => {
            let length = explore.as_bytes().len();
            Ok(Text::from_string(format!(in alloc; "query {length}")?))
        }
        Target::Load(table, replaces, id) => {
            let (table, id) = (table.as_bytes().len(), id.as_bytes().len());
            Ok(Text::from_string(format!(in alloc; "load {table} {replaces} {id}")?))
        }
    }
}
END_OF_PROGRAM
program=$HTTP_TIMING
if [ -z "$program" ]; then
    (cd "$work/crates/timing" && touch stdin && rt run) >"$work/build.log" 2>&1 || { tail -n 40 "$work/build.log"; exit 1; }
    program=$work/crates/timing/out/timing
fi
rustc -O -o "$work/plain" "$here/http_plain.rs" || exit 1

# ---- times: of the clock, and of the processor alone
measured() { /usr/bin/time -f '    %U s of the processor, at most %M KB of memory' timeout 1200 "$@"; }
echo "time requests" | measured "$program"
measured "$work/plain" time
for what in 'short fields' 'long fields' 'a target' 'slashes of a target' 'a value' 'spaces of a value' 'a name' 'a method' \
    'line feeds' 'line ends'; do
    echo "time $what" | measured "$program"
done

# ---- random and changed heads
"$work/plain" make 1 "$heads" >"$work/heads"
timeout 1200 "$program" <"$work/heads" >"$work/told" || echo "lk_http ended with $?"
timeout 1200 "$work/plain" judge <"$work/heads" >"$work/plain_told"
timeout 1200 python3 "$here/http_definition.py" 60 <"$work/heads" >"$work/defined"
awk '{ sub(/[, ].*/, ""); count[$0]++ } END { for (k in count) print k, count[k] }' "$work/told" | sort
cmp "$work/told" "$work/plain_told" && echo "plain Rust says the same of all $(wc -l <"$work/told")"
paste -d'|' "$work/defined" "$work/told" | awk -F'|' '
    $1 != "" { n++; if ($1 != $2) other++ }
    END { print "the definition says the same of " n - other " of " n " of at most 60 bytes" }'
