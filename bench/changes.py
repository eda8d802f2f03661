#!/usr/bin/env python3
"""Measures, in one run, what changes cost and how that grows: `$set` of one field of a document of a megabyte, puts and finds in a
collection with past versions, look-ups in the book of numbered statements, and reading the records of a journal.

Makes a program over the crates of this repository in a folder of its own, builds it with `rt run` (which proves it) and hands it an
update, its document and the records of a journal. Wanted: the update costs 4 times a copy of its document at most; a put and a find
at 20,000 keys cost 1.3 times those at 2,000 at most, and a look-up among 20,000 sessions 1.3 times one among 2,000, where keys and
sessions are gone through in the order of their making; a find of a key with 1,000 versions, now and at its oldest time, 1.3 times that
of a key with one; reading records twice the reading of the documents in them. Tells the same where keys and sessions are gone through
by a fixed stride, and the bytes of the book for each statement that is noted. Keys are ObjectIds as a driver makes them, and
identifiers of sessions rise likewise; all are made before the clock runs. Each figure is the least of some rounds, in five processes: where
the memory of one lies makes up to 0.04 of a ratio. With $CHANGES_FOLDER the program is made in that folder and stays there, so that a later
run proves only what has changed. Ends with status 1 where a wanted
bound does not hold. Usage: changes.py [ROUNDS]
"""
import contextlib
import os
import pathlib
import shutil
import struct
import subprocess
import sys
import tempfile

TOP = pathlib.Path(__file__).resolve().parent.parent

# the crates that the program names; those below them are found in crates.txt
NAMED = ("update_ops", "mvcc_collection", "session_book", "record_reader", "value_compare", "cluster_base", "bson_values")

RECORDS = 20_000

# how often a document of a megabyte is copied and changed in one round
CHANGES = 20

# how often the program is run
PROCESSES = 5

PROGRAM = """\
//! Tells lines of a name, a count and microseconds. With a filter, a change, a document and then records on standard input, each behind
//! its length in four bytes, it applies the update, reads the records, and makes collections and books; with four bytes there it notes
//! as many statements as they say.
#![tactic(auto)]

ghost use Rattle.std.specs.Prelude.{◌≡◌, ◌<◌, ℕ, Some};
ghost use Rattle.bson_values.specs.Tree.{Datum};
ghost use Rattle.mvcc_collection.specs.Collections.{last_in};

use bson_values::{Aligned, Document, Memory, Value, read};
use byteorder::{BigEndian, ByteOrder, LittleEndian};
use cluster_base::{Session, Stmt, Time};
use mvcc_collection::Collection;
use record_reader::read_record;
use session_book::{Book, Seen};
use std::alloc::Global;
use std::io::{self, Read};
use std::sync::Arc;
use std::time::Instant;
use update_ops::{Op, apply};
use value_compare::{Key, OpWords, Reply};

/// A collection in which each version is later than those before.
#[derive(Drop)]
struct Growing {
    collection: Collection,
    next: u64,
    ghost below: { (k : Datum) (t : ℕ) → last_in collection k ≡ Some t → t < next },
}

impl Growing {
    fn new(alloc: Global) -> Growing {
        Growing {
            collection: Collection::new(alloc),
            next: 0,
        }
    }

    fn put(&mut self, key: &Key, document: &Arc<Document, Global>) -> Result<(), Memory> {
        if self.next == u64::MAX {
            return Ok(());
        }
        let document = Arc::try_clone(document)?;
        self.collection.reserve(key)?;
        self.collection.put(key, Time(self.next), Some(document));
        self.next += 1;
        Ok(())
    }

    fn put_all(&mut self, keys: &[Key], document: &Arc<Document, Global>) -> Result<u32, Memory> {
        let mut count = 0u32;
        for key in keys {
            self.put(key, document)?;
            count = count.saturating_add(1);
        }
        Ok(count)
    }

    fn put_often(
        &mut self,
        times: u32,
        keys: &[Key],
        document: &Arc<Document, Global>,
    ) -> Result<u32, Memory> {
        let mut count = 0u32;
        for _ in 0..times {
            count = count.saturating_add(self.put_all(keys, document)?);
        }
        Ok(count)
    }
}

/// The order in which keys and sessions are gone through.
#[derive(Clone, Copy)]
enum Order {
    /// Their own, which is that of their making.
    Rising,
    /// By a fixed stride.
    Scattered,
}

fn word_of(order: Order) -> &'static str {
    match order {
        Order::Rising => "rising",
        Order::Scattered => "scattered",
    }
}

// The number at a place among so many.
fn number_at(order: Order, place: u32, count: u32) -> u32
    requires { 0 < count }
{
    match order {
        Order::Rising => place,
        Order::Scattered => place.wrapping_mul(7919) % count,
    }
}

// One of the ObjectIds that a driver makes one after the other: a second, its own bytes, and a counter (BSON 1.1, "ObjectId").
fn object_id(number: u32) -> Value {
    let mut id = [7; 12];
    BigEndian::write_u32(&mut id, 1_700_000_000u32.saturating_add(number / 100));
    BigEndian::write_u32(&mut id[8..], number);
    Value::ObjectId(Aligned::of(id))
}

// So many keys, in the order.
fn keys_of(alloc: Global, order: Order, count: u32) -> Result<Vec<Key>, Memory> {
    let mut keys = Vec::new(alloc);
    for place in 0..count {
        let Ok(key) = Key::of(object_id(number_at(order, place, count))) else {
            return Ok(keys);
        };
        keys.push(key)?;
    }
    Ok(keys)
}

// How many of the keys have a document at the time.
fn found_of(collection: &Collection, keys: &[Key], time: Time) -> u32 {
    let mut count = 0u32;
    for key in keys {
        if collection.get_at(key, time).is_some() {
            count = count.saturating_add(1);
        }
    }
    count
}

fn found_often(times: u32, collection: &Collection, keys: &[Key], time: Time) -> u32 {
    let mut count = 0u32;
    for _ in 0..times {
        count = count.saturating_add(found_of(collection, keys, time));
    }
    count
}

fn tell(rt: &HostRuntime, name: &str, start: &Instant, count: u32) -> io::Result<()> {
    let micros = start.elapsed(rt)?.as_micros();
    println!(rt; "{name} {count} {micros}")?;
    Ok(())
}

fn tell_in(rt: &HostRuntime, name: &str, order: Order, start: &Instant, count: u32) -> io::Result<()> {
    let micros = start.elapsed(rt)?.as_micros();
    let word = word_of(order);
    println!(rt; "{name}-{word} {count} {micros}")?;
    Ok(())
}

// Puts ten versions under each of so many keys, which have one, and finds each of these so often.
fn tell_keys(rt: &HostRuntime, order: Order, count: u32, often: u32) -> io::Result<()> {
    let alloc = rt.alloc();
    let Ok(keys) = keys_of(alloc, order, count) else {
        return Ok(());
    };
    let Ok(document) = Arc::new(alloc, Document::new(alloc)) else {
        return Ok(());
    };
    let mut growing = Growing::new(alloc);
    let _ = growing.put_all(&keys, &document);
    let start = Instant::now(rt)?;
    let puts = growing.put_often(10, &keys, &document).unwrap_or(0);
    tell_in(rt, "put", order, &start, puts)?;
    let start = Instant::now(rt)?;
    let found = found_often(often, &growing.collection, &keys, Time(u64::MAX));
    tell_in(rt, "find", order, &start, found)
}

// Puts so many versions under one of 2,000 keys, and finds it now and at its oldest time.
fn tell_versions(rt: &HostRuntime, versions: u32) -> io::Result<()> {
    let alloc = rt.alloc();
    let Ok(keys) = keys_of(alloc, Order::Rising, 2000) else {
        return Ok(());
    };
    let Ok(document) = Arc::new(alloc, Document::new(alloc)) else {
        return Ok(());
    };
    let mut growing = Growing::new(alloc);
    let _ = growing.put_all(&keys, &document);
    let one = if keys.len() > 1000 { &keys[1000..1001] } else { &keys[..0] };
    let _ = growing.put_often(versions, one, &document);
    let start = Instant::now(rt)?;
    let found = found_often(200_000, &growing.collection, one, Time(u64::MAX));
    tell(rt, "now", &start, found)?;
    let start = Instant::now(rt)?;
    let found = found_often(200_000, &growing.collection, one, Time(1000));
    tell(rt, "oldest", &start, found)
}

// The number of the first statement of the first transaction in a client's session; identifiers rise with the sessions.
fn statement(session: u32) -> Stmt {
    let mut id = [0; 16];
    BigEndian::write_u32(&mut id, session);
    Stmt {
        session: Session::Client(id),
        txn: 1,
        index: 0,
    }
}

// The statements of so many sessions, in the order.
fn statements_of(alloc: Global, order: Order, count: u32) -> Result<Vec<Stmt>, Memory> {
    let mut statements = Vec::new(alloc);
    for place in 0..count {
        statements.push(statement(number_at(order, place, count)))?;
    }
    Ok(statements)
}

fn note(book: &mut Book, s: &Stmt) -> Result<(), Memory> {
    match book.look(s) {
        Seen::New => {}
        _ => return Ok(()),
    }
    book.reserve(s)?;
    book.note(
        s,
        Time(1),
        Reply {
            n: 1,
            modified: 0,
            upserted: None,
            code: 0,
        },
    );
    Ok(())
}

fn book_of(alloc: Global, statements: &[Stmt]) -> Result<Book, Memory> {
    let mut book = Book::new(alloc);
    for s in statements {
        note(&mut book, s)?;
    }
    Ok(book)
}

// How many of the statements were done.
fn done_of(book: &Book, statements: &[Stmt]) -> u32 {
    let mut done = 0u32;
    for s in statements {
        if let Seen::Done { .. } = book.look(s) {
            done = done.saturating_add(1);
        }
    }
    done
}

fn done_often(times: u32, book: &Book, statements: &[Stmt]) -> u32 {
    let mut done = 0u32;
    for _ in 0..times {
        done = done.saturating_add(done_of(book, statements));
    }
    done
}

fn tell_book(rt: &HostRuntime, order: Order, sessions: u32, often: u32) -> io::Result<()> {
    let Ok(statements) = statements_of(rt.alloc(), order, sessions) else {
        return Ok(());
    };
    let Ok(book) = book_of(rt.alloc(), &statements) else {
        return Ok(());
    };
    let start = Instant::now(rt)?;
    let done = done_often(often, &book, &statements);
    tell_in(rt, "look", order, &start, done)
}

// Notes a statement in each of so many sessions, for the memory that it takes.
fn tell_noted(rt: &HostRuntime, sessions: u32) -> io::Result<()> {
    let start = Instant::now(rt)?;
    let mut book = Book::new(rt.alloc());
    let mut noted = 0u32;
    for session in 0..sessions {
        if note(&mut book, &statement(session)).is_ok() {
            noted = noted.saturating_add(1);
        }
    }
    tell(rt, "noted", &start, noted)
}

// The next record, and the bytes behind it.
fn next_record(bytes: &[u8]) -> Option<(&[u8], &[u8])> {
    if bytes.len() < 4 {
        return None;
    }
    let (length, rest) = bytes.split_at(4);
    let length = LittleEndian::read_u32(length) as usize;
    if rest.len() < length {
        return None;
    }
    Some(rest.split_at(length))
}

fn read_records(alloc: Global, bytes: &[u8]) -> u32 {
    let mut count = 0u32;
    let mut rest = bytes;
    for _ in 0..COUNT {
        let Some((one, behind)) = next_record(rest) else {
            return count;
        };
        if read_record(alloc, one).is_err() {
            return count;
        }
        rest = behind;
        count = count.saturating_add(1);
    }
    count
}

// Reads the document of each record, which stands behind so many bytes.
fn read_documents(alloc: Global, bytes: &[u8]) -> u32 {
    let mut count = 0u32;
    let mut rest = bytes;
    for _ in 0..COUNT {
        let Some((one, behind)) = next_record(rest) else {
            return count;
        };
        if one.len() < HEAD || read(alloc, &one[HEAD..]).is_err() {
            return count;
        }
        rest = behind;
        count = count.saturating_add(1);
    }
    count
}

fn tell_records(rt: &HostRuntime, bytes: &[u8]) -> io::Result<()> {
    let start = Instant::now(rt)?;
    let count = read_records(rt.alloc(), bytes);
    tell(rt, "records", &start, count)?;
    let start = Instant::now(rt)?;
    let count = read_documents(rt.alloc(), bytes);
    tell(rt, "documents", &start, count)
}

// The update of these words.
fn update_of(alloc: Global, filter: &[u8], change: &[u8]) -> Option<Op> {
    let Ok((filter, _length)) = read(alloc, filter) else {
        return None;
    };
    let Ok((change, _length)) = read(alloc, change) else {
        return None;
    };
    let words = OpWords::Update {
        filter,
        change,
        upsert: false,
    };
    match Op::read(alloc, &words) {
        Ok(op) => Some(op),
        Err(_fault) => None,
    }
}

fn copy_often(document: &Document) -> u32 {
    let mut count = 0u32;
    for _ in 0..CHANGES {
        if document.copy().is_ok() {
            count = count.saturating_add(1);
        }
    }
    count
}

// How many of so many times one document was changed.
fn change_often(alloc: Global, op: &Op, document: &Document) -> u32 {
    let mut count = 0u32;
    for _ in 0..CHANGES {
        match apply(alloc, op, Some(document)) {
            Ok(applied) => count = count.saturating_add(applied.reply.modified),
            Err(_fault) => return count,
        }
    }
    count
}

fn tell_change(rt: &HostRuntime, op: &Op, document: &Document) -> io::Result<()> {
    let start = Instant::now(rt)?;
    let count = copy_often(document);
    tell(rt, "copy", &start, count)?;
    let start = Instant::now(rt)?;
    let count = change_often(rt.alloc(), op, document);
    tell(rt, "set", &start, count)
}

// Applies the update with which the bytes begin; gives the bytes behind it.
fn tell_update<'a>(rt: &HostRuntime, bytes: &'a [u8]) -> io::Result<&'a [u8]> {
    let Some((filter, rest)) = next_record(bytes) else {
        return Ok(bytes);
    };
    let Some((change, rest)) = next_record(rest) else {
        return Ok(bytes);
    };
    let Some((spelled, rest)) = next_record(rest) else {
        return Ok(bytes);
    };
    let Some(op) = update_of(rt.alloc(), filter, change) else {
        return Ok(bytes);
    };
    let Ok((document, _length)) = read(rt.alloc(), spelled) else {
        return Ok(bytes);
    };
    tell_change(rt, &op, &document)?;
    Ok(rest)
}

// Collections and books of 2,000 and of 20,000, gone through in the order.
fn tell_ordered(rt: &HostRuntime, order: Order) -> io::Result<()> {
    tell_keys(rt, order, 2000, 100)?;
    tell_keys(rt, order, 20_000, 10)?;
    tell_book(rt, order, 2000, 100)?;
    tell_book(rt, order, 20_000, 10)
}

fn tell_round(rt: &HostRuntime, bytes: &[u8]) -> io::Result<()> {
    let journal = tell_update(rt, bytes)?;
    tell_records(rt, journal)?;
    tell_ordered(rt, Order::Rising)?;
    tell_ordered(rt, Order::Scattered)?;
    tell_versions(rt, 0)?;
    tell_versions(rt, 999)
}

fn main(rt: HostRuntime) -> io::Result<()> {
    let mut bytes = Vec::new(rt.alloc());
    rt.stdin().read_to_end(&mut bytes)?;
    if bytes.len() == 4 {
        return tell_noted(&rt, LittleEndian::read_u32(&bytes));
    }
    for _ in 0..ROUNDS {
        tell_round(&rt, &bytes)?;
    }
    Ok(())
}
"""


def framed(body):
    return struct.pack("<i", len(body) + 5) + body + b"\0"


def field(kind, name, value):
    return bytes([kind]) + name.encode() + b"\0" + value


def int32(number):
    return struct.pack("<i", number)


def string(text):
    return struct.pack("<i", len(text) + 1) + text.encode() + b"\0"


def array(numbers):
    return framed(b"".join(field(0x10, str(i), int32(number)) for i, number in enumerate(numbers)))


def document(number):
    """A document of 12 fields: numbers, strings, an array and a document inside."""
    return framed(
        field(0x10, "_id", int32(number))
        + field(0x10, "count", int32(number % 1000))
        + field(0x12, "total", struct.pack("<q", number * 1000))
        + field(0x02, "name", string(f"entry number {number}"))
        + field(0x02, "kind", string(("plain", "mixed", "whole")[number % 3]))
        + field(0x08, "open", b"\1")
        + field(0x09, "made", struct.pack("<q", 1_700_000_000_000 + number))
        + field(0x0A, "nothing", b"")
        + field(0x04, "marks", array([number % 7, number % 11, number % 13]))
        + field(0x03, "inner", framed(field(0x10, "x", int32(number % 5)) + field(0x02, "y", string("text"))))
        + field(0x11, "stamp", struct.pack("<Q", number))
        + field(0x10, "last", int32(number * 7 % 4000))
    )


def head(number):
    """The bytes of an insert's record before its document."""
    session = b"\1" + struct.pack("<IQQ", 2, 1, number)
    return b"\1\2" + struct.pack("<Q", number) + struct.pack("<I", 3) + b"d.c" + session + struct.pack("<qI", 0, 0) + b"\1"


def behind_length(spelled):
    return struct.pack("<I", len(spelled)) + spelled


def update():
    """A filter, a change of one field in the middle, and a document of a megabyte that it meets."""
    entries = [field(0x03, f"entry{number}", document(number)) for number in range(4800)]
    middle = field(0x10, "middle", int32(1))
    whole = framed(field(0x10, "_id", int32(1)) + b"".join([*entries[:2400], middle, *entries[2400:]]))
    change = framed(field(0x03, "$set", framed(field(0x10, "middle", int32(2)))))
    return b"".join(map(behind_length, (framed(field(0x10, "_id", int32(1))), change, whole)))


def record(number):
    spelled = head(number) + document(number) + struct.pack("<II", 1, 0) + b"\0" + int32(0)
    return behind_length(spelled)


def crates_below(names):
    """The lines of crates.txt of these crates and of those below them."""
    lines = [line for line in (TOP / "crates.txt").read_text().splitlines() if line and not line.startswith("#")]
    below = {line.split(":")[0]: line.split(":")[1].split() for line in lines}
    wanted, left = set(), list(names)
    while left:
        name = left.pop()
        if name in below and name not in wanted:
            wanted.add(name)
            left += below[name]
    return [line for line in lines if line.split(":")[0] in wanted]


def program(top, rounds):
    """A repository with the crates that the program stands on, and the program."""
    lines = crates_below(NAMED)
    ignored = shutil.ignore_patterns("out", "must-fail", "more-edits")
    for name in [line.split(":")[0] for line in lines] + ["measure"]:
        for part in ("src", "specs", "proofs"):
            shutil.rmtree(top / "crates" / name / part, ignore_errors=True)
    for line in lines:
        name = line.split(":")[0]
        shutil.copytree(TOP / "crates" / name, top / "crates" / name, ignore=ignored, dirs_exist_ok=True)
    (top / "crates.txt").write_text("\n".join([*lines, f"measure: {' '.join(NAMED)} byteorder"]) + "\n")
    source = top / "crates" / "measure" / "src"
    source.mkdir(parents=True)
    text = PROGRAM
    for word, number in (("ROUNDS", rounds), ("COUNT", RECORDS), ("CHANGES", CHANGES), ("HEAD", len(head(0)))):
        text = text.replace(word, str(number))
    (source / "main.rt").write_text(text)
    return top / "crates" / "measure"


def most_memory(program, sessions):
    """The most bytes of memory that the program has while it notes a statement for each of so many sessions, or those of this script,
    which a process is told to have had from its start, if they are more."""
    running = subprocess.Popen([program], stdin=subprocess.PIPE, stdout=subprocess.PIPE)
    running.stdin.write(struct.pack("<I", sessions))
    running.stdin.close()
    told = running.stdout.read().decode().split()
    _, status, usage = os.wait4(running.pid, 0)
    if status != 0 or told[:2] != ["noted", str(sessions)]:
        sys.exit(f"noted {told} of {sessions}")
    return usage.ru_maxrss * 1024


def figures(told, rounds):
    """The nanoseconds of one call of each kind, the least of all rounds, in the order in which a round tells them."""
    lines = [line.split() for line in told.splitlines()]
    each = len(lines) // rounds
    kinds = [(name, int(count)) for name, count, _ in lines[:each]]
    if [(name, int(count)) for name, count, _ in lines] != kinds * rounds or min(count for _, count in kinds) == 0:
        sys.exit(f"rounds differ, or nothing was done: {kinds}")
    return [(name, min(int(line[2]) for line in lines[at::each]) * 1000 / count) for at, (name, count) in enumerate(kinds)]


def main():
    rounds = int(sys.argv[1]) if len(sys.argv) > 1 else 7
    journal = b"".join(map(record, range(RECORDS)))
    kept = os.environ.get("CHANGES_FOLDER")
    with contextlib.nullcontext(kept) if kept else tempfile.TemporaryDirectory() as folder:
        crate = program(pathlib.Path(folder), rounds)
        subprocess.run(["rt", "run"], cwd=crate, stdin=subprocess.DEVNULL, stdout=subprocess.DEVNULL, check=True)
        built = crate / "out" / "measure"
        runs = [subprocess.run([built], input=update() + journal, stdout=subprocess.PIPE, check=True) for _ in range(PROCESSES)]
        told = "".join(ran.stdout.decode() for ran in runs)
        noted = (most_memory(built, 1_000_000) - most_memory(built, 500_000)) / 500_000
    got = figures(told, rounds * PROCESSES)
    ordered = [f"{name}-{order}" for order in ("rising", "scattered") for name in ("put", "find", "put", "find", "look", "look")]
    names = ["copy", "set", "records", "documents", *ordered, "now", "oldest", "now", "oldest"]
    if [name for name, _ in got] != names:
        sys.exit(f"told {got}")
    cost = [nanos for _, nanos in got]
    ratios = [
        ("$set in a document of a megabyte", cost[1], "its copy", cost[0], 4),
        ("reading a record", cost[2], "its document", cost[3], 2),
        ("a find now of 1,000 versions", cost[18], "of one", cost[16], 1.3),
        ("a find at the oldest of 1,000 versions", cost[19], "of one", cost[17], 1.3),
    ]
    for order, at, bound in (("in order", 4, 1.3), ("scattered", 10, None)):
        ratios += [
            (f"a put at 20,000 keys, {order}", cost[at + 2], "at 2,000", cost[at], bound),
            (f"a find at 20,000 keys, {order}", cost[at + 3], "at 2,000", cost[at + 1], bound),
            (f"a look-up among 20,000 sessions, {order}", cost[at + 5], "among 2,000", cost[at + 4], bound),
        ]
    good = True
    for name, nanos, other, least, bound in ratios:
        wanted = f"at most {bound}" if bound else "told"
        print(f"{name}: {nanos:.0f} ns, {other} {least:.0f} ns: {nanos / least:.2f} times ({wanted})")
        good = good and (bound is None or nanos <= bound * least)
    print(f"bytes of the book for each statement, one a session: {noted:.0f}")
    sys.exit(0 if good else 1)


main()
