#!/usr/bin/env python3
"""Measures how many bytes a second `read` and `write` of `bson_values` take, on a mixed document of some megabytes.

Makes a program over the crates of this repository in a folder of its own, builds it with `rt run` (which proves it) and
hands it the document. Usage: documents.py [MEGABYTES] [ROUNDS]
"""
import pathlib
import shutil
import struct
import subprocess
import sys
import tempfile

TOP = pathlib.Path(__file__).resolve().parent.parent

PROGRAM = """\
//! Reads and writes the document on standard input, and tells its bytes, the rounds, and the milliseconds of each.
#![tactic(auto)]

use bson_values::{Document, read, write};
use std::alloc::Global;
use std::io::{self, Read};
use std::time::Instant;

const MOST_BYTES: usize = 200_000_000;

fn read_all(alloc: Global, rounds: u32, bytes: &[u8]) -> u32 {
    let mut done = 0;
    for _ in 0..rounds {
        if read(alloc, bytes).is_ok() {
            done = u32::saturating_add(done, 1);
        }
    }
    done
}

fn write_all(alloc: Global, rounds: u32, bytes: &[u8]) -> u32 {
    let mut done = 0;
    let Ok((document, _)) = read(alloc, bytes) else {
        return done;
    };
    if document.size() > MOST_BYTES {
        return done;
    }
    for _ in 0..rounds {
        let mut out = Vec::new(alloc);
        if write(&document, &mut out).is_ok() {
            done = u32::saturating_add(done, 1);
        }
    }
    done
}

fn main(rt: HostRuntime) -> io::Result<()> {
    let mut bytes = Vec::new(rt.alloc());
    rt.stdin().read_to_end(&mut bytes)?;
    let start = Instant::now(&rt)?;
    let reads = read_all(rt.alloc(), ROUNDS, &bytes);
    let reading = start.elapsed(&rt)?.as_millis();
    let start = Instant::now(&rt)?;
    let writes = write_all(rt.alloc(), ROUNDS, &bytes);
    let writing = start.elapsed(&rt)?.as_millis();
    let length = bytes.len();
    println!(rt; "{length} {reads} {reading} {writes} {writing}")?;
    Ok(())
}
"""


def framed(body):
    return struct.pack("<I", len(body) + 5) + body + b"\0"


def string(text):
    return struct.pack("<I", len(text) + 1) + text + b"\0"


def entry(number):
    """A document with a member of each kind."""
    items = b"".join(b"\x10%d\0" % i + struct.pack("<i", i) for i in range(4))
    return framed(
        b"\x10_id\0" + struct.pack("<i", number)
        + b"\x02name\0" + string(b"entry number %d" % number)
        + b"\x04items\0" + framed(items)
        + b"\x05blob\0" + struct.pack("<I", 32) + b"\0" + bytes(range(32))
        + b"\x07oid\0" + b"abcdefghijkl"
        + b"\x08flag\0\x01"
        + b"\x09date\0" + struct.pack("<q", 1_700_000_000_000)
        + b"\x0anone\0"
        + b"\x11time\0" + struct.pack("<Q", number)
        + b"\x12long\0" + struct.pack("<q", -number)
        + b"\xffleast\0"
        + b"\x7fmost\0"
    )


def mixed(size):
    parts = []
    length = number = 0
    while length < size:
        part = b"\x03%d\0" % number + entry(number)
        parts.append(part)
        length += len(part)
        number += 1
    return framed(b"".join(parts))


def program(top, rounds):
    """A repository with the crates that the program stands on, and the program."""
    for name in ("bson_model", "bson_values"):
        shutil.copytree(TOP / "crates" / name, top / "crates" / name, ignore=shutil.ignore_patterns("out", "must-fail"))
    lines = [line for line in (TOP / "crates.txt").read_text().splitlines() if line.startswith(("bson_model:", "bson_values:"))]
    (top / "crates.txt").write_text("\n".join(lines + ["measure: bson_values"]) + "\n")
    source = top / "crates" / "measure" / "src"
    source.mkdir(parents=True)
    (source / "main.rt").write_text(PROGRAM.replace("ROUNDS", str(rounds)))
    return top / "crates" / "measure"


def main():
    megabytes = int(sys.argv[1]) if len(sys.argv) > 1 else 8
    rounds = int(sys.argv[2]) if len(sys.argv) > 2 else 10
    with tempfile.TemporaryDirectory() as folder:
        crate = program(pathlib.Path(folder), rounds)
        subprocess.run(["rt", "run"], cwd=crate, stdin=subprocess.DEVNULL, stdout=subprocess.DEVNULL, check=True)
        told = subprocess.run([crate / "out" / "measure"], input=mixed(megabytes << 20), stdout=subprocess.PIPE, check=True)
    length, reads, reading, writes, writing = map(int, told.stdout.split())
    if reads != rounds or writes != rounds:
        sys.exit(f"only {reads} reads and {writes} writes of {rounds} succeeded")
    for name, millis in (("read", reading), ("write", writing)):
        print(f"{name}: {length} bytes {rounds} times in {millis} ms: {length * rounds / max(millis, 1) / 1000:.1f} MB a second")


main()
