#!/usr/bin/env python3
"""Measures filters against reading: the time of `holds` over 20,000 documents of 12 fields, as a part of the time in which `read` reads
those documents from their bytes, in one run.

Makes a program over the crates of this repository in a folder of its own, builds it with `rt run` (which proves it) and hands it
filters and documents. Wanted: a filter of one field takes a quarter of the reading at most, one of ten fields a half. Of `$in` with
1,000 numbers, which is a search by halving, the figure is told, and beside it that of `$in` with 10. Ends with status 1 where a wanted
bound does not hold. Usage: matching.py [ROUNDS]
"""
import pathlib
import shutil
import struct
import subprocess
import sys
import tempfile

TOP = pathlib.Path(__file__).resolve().parent.parent

CRATES = ("bson_model", "value_model", "bson_values", "value_compare", "query_model", "field_paths", "match_expr")

DOCUMENTS = 20_000

PROGRAM = """\
//! Reads four filters and then documents from standard input. Tells the microseconds in which the documents are read, and for each
//! filter the microseconds in which it is held against them; with each, a count that shows that it was done.
#![tactic(auto)]

use bson_values::{Document, read};
use match_expr::{Expr, holds};
use std::alloc::Global;
use std::io::{self, Read};
use std::time::Instant;

// The filter that the bytes begin with, and the bytes behind it.
fn filter_in(alloc: Global, bytes: &[u8]) -> Option<(Expr, &[u8])> {
    let Ok((document, length)) = read(alloc, bytes) else {
        return None;
    };
    match Expr::parse(alloc, &document) {
        Ok(filter) => Some((filter, &bytes[length..])),
        Err(_fault) => None,
    }
}

// Reads documents one after another, lets them go, and counts them.
fn read_all(alloc: Global, bytes: &[u8]) -> u32 {
    let mut count = 0u32;
    let mut rest = bytes;
    for _ in 0..COUNT {
        let Ok((_document, length)) = read(alloc, rest) else {
            return count;
        };
        rest = &rest[length..];
        count = count.saturating_add(1);
    }
    count
}

// Reads documents one after another, and keeps them.
fn kept_from(alloc: Global, bytes: &[u8]) -> Vec<Document> {
    let mut kept = Vec::new(alloc);
    let mut rest = bytes;
    for _ in 0..COUNT {
        let Ok((document, length)) = read(alloc, rest) else {
            return kept;
        };
        rest = &rest[length..];
        if kept.push(document).is_err() {
            return kept;
        }
    }
    kept
}

// Of how many documents the filter holds.
fn count_of(filter: &Expr, documents: &[Document]) -> u32 {
    let mut count = 0u32;
    for document in documents {
        if holds(filter, document) {
            count = count.saturating_add(1);
        }
    }
    count
}

// Reads the documents, round after round.
fn tell_reading(rt: &HostRuntime, bytes: &[u8]) -> io::Result<()> {
    let start = Instant::now(rt)?;
    let mut count = 0u32;
    for _ in 0..ROUNDS {
        count = count.saturating_add(read_all(rt.alloc(), bytes));
    }
    let micros = start.elapsed(rt)?.as_micros();
    println!(rt; "{count} {micros}")?;
    Ok(())
}

// Holds the filter against the documents, round after round.
fn tell_holding(rt: &HostRuntime, filter: &Expr, documents: &[Document]) -> io::Result<()> {
    let start = Instant::now(rt)?;
    let mut count = 0u32;
    for _ in 0..ROUNDS {
        count = count.saturating_add(count_of(filter, documents));
    }
    let micros = start.elapsed(rt)?.as_micros();
    println!(rt; "{count} {micros}")?;
    Ok(())
}

// Reads one filter and holds it; gives the bytes behind the filter.
fn tell_next<'a>(rt: &HostRuntime, bytes: &'a [u8], documents: &[Document]) -> io::Result<&'a [u8]> {
    let Some((filter, rest)) = filter_in(rt.alloc(), bytes) else {
        return Ok(bytes);
    };
    tell_holding(rt, &filter, documents)?;
    Ok(rest)
}

fn main(rt: HostRuntime) -> io::Result<()> {
    let mut bytes = Vec::new(rt.alloc());
    rt.stdin().read_to_end(&mut bytes)?;
    let at = usize::min(FILTER_BYTES, bytes.len());
    let (filters, spelled) = bytes.split_at(at);
    tell_reading(&rt, spelled)?;
    let documents = kept_from(rt.alloc(), spelled);
    let mut rest = filters;
    for _ in 0..4 {
        rest = tell_next(&rt, rest, &documents)?;
    }
    Ok(())
}
"""


def framed(body):
    return struct.pack("<i", len(body) + 5) + body + b"\0"


def field(kind, name, value):
    return bytes([kind]) + name.encode() + b"\0" + value


def int32(number):
    return struct.pack("<i", number)


def string(text):
    return struct.pack("<i", len(text) + 1) + text.encode() + b"\0"


def array(numbers):
    return framed(b"".join(field(0x10, str(i), int32(number)) for i, number in enumerate(numbers)))


def document(number):
    """A document of 12 fields: numbers, strings, an array and a document inside."""
    return framed(
        field(0x10, "_id", int32(number))
        + field(0x10, "count", int32(number % 1000))
        + field(0x12, "total", struct.pack("<q", number * 1000))
        + field(0x02, "name", string(f"entry number {number}"))
        + field(0x02, "kind", string(("plain", "mixed", "whole")[number % 3]))
        + field(0x08, "open", b"\1")
        + field(0x09, "made", struct.pack("<q", 1_700_000_000_000 + number))
        + field(0x0A, "nothing", b"")
        + field(0x04, "marks", array([number % 7, number % 11, number % 13]))
        + field(0x03, "inner", framed(field(0x10, "x", int32(number % 5)) + field(0x02, "y", string("text"))))
        + field(0x11, "stamp", struct.pack("<Q", number))
        + field(0x10, "last", int32(number * 7 % 4000))
    )


def at_least(name, kind, value):
    """The field `name: {$gte: value}` of a filter."""
    return field(0x03, name, framed(field(kind, "$gte", value)))


def among(numbers):
    """The filter `{last: {$in: numbers}}`."""
    return framed(field(0x03, "last", framed(field(0x04, "$in", array(numbers)))))


def filters():
    """A filter of one field, which holds of half of the documents; one of ten, which all hold; and two lists, listed downwards."""
    one = framed(at_least("count", 0x10, int32(500)))
    ten = framed(
        at_least("_id", 0x10, int32(0))
        + at_least("count", 0x10, int32(0))
        + at_least("total", 0x12, struct.pack("<q", 0))
        + at_least("name", 0x02, string(""))
        + at_least("kind", 0x02, string(""))
        + field(0x08, "open", b"\1")
        + field(0x0A, "nothing", b"")
        + at_least("marks", 0x10, int32(0))
        + at_least("inner.x", 0x10, int32(0))
        + at_least("last", 0x10, int32(0))
    )
    return one, ten, among(range(1998, -2, -2)), among(range(1998, 1978, -2))


def program(top, rounds, filter_bytes):
    """A repository with the crates that the program stands on, and the program."""
    for name in CRATES:
        ignored = shutil.ignore_patterns("out", "must-fail", "more-edits")
        shutil.copytree(TOP / "crates" / name, top / "crates" / name, ignore=ignored)
    starts = tuple(f"{name}:" for name in CRATES)
    lines = [line for line in (TOP / "crates.txt").read_text().splitlines() if line.startswith(starts)]
    (top / "crates.txt").write_text("\n".join([*lines, "measure: match_expr bson_values"]) + "\n")
    source = top / "crates" / "measure" / "src"
    source.mkdir(parents=True)
    text = PROGRAM.replace("ROUNDS", str(rounds)).replace("COUNT", str(DOCUMENTS)).replace("FILTER_BYTES", str(filter_bytes))
    (source / "main.rt").write_text(text)
    return top / "crates" / "measure"


def main():
    rounds = int(sys.argv[1]) if len(sys.argv) > 1 else 10
    head = b"".join(filters())
    given = head + b"".join(map(document, range(DOCUMENTS)))
    with tempfile.TemporaryDirectory() as folder:
        crate = program(pathlib.Path(folder), rounds, len(head))
        subprocess.run(["rt", "run"], cwd=crate, stdin=subprocess.DEVNULL, stdout=subprocess.DEVNULL, check=True)
        told = subprocess.run([crate / "out" / "measure"], input=given, stdout=subprocess.PIPE, check=True)
    figures = [tuple(map(int, line.split())) for line in told.stdout.decode().splitlines()]
    wanted = [DOCUMENTS, sum(n % 1000 >= 500 for n in range(DOCUMENTS)), DOCUMENTS]
    lists = [range(0, 2000, 2), range(1980, 2000, 2)]
    wanted += [sum(n * 7 % 4000 in numbers for n in range(DOCUMENTS)) for numbers in lists]
    if [count for count, _ in figures] != [count * rounds for count in wanted]:
        sys.exit(f"counted {[count for count, _ in figures]}, and not {rounds} times {wanted}")
    reading = figures[0][1]
    print(f"reading {DOCUMENTS} documents of 12 fields: {reading / rounds / 1000:.1f} ms")
    good = True
    names = ("one field", "ten fields", "$in of 1,000 numbers", "$in of 10 numbers")
    for name, bound, (_, micros) in zip(names, (0.25, 0.5, None, None), figures[1:]):
        part = micros / reading
        print(f"{name}: {micros / rounds / 1000:.1f} ms, {part:.3f} of reading" + (f" (at most {bound})" if bound else ""))
        good = good and (bound is None or part <= bound)
    sys.exit(0 if good else 1)


main()
