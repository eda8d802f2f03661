#!/usr/bin/env python3
"""Measures, in one run, how the parts of a move grow: a whole copy of a range, batch by batch, with one write a batch, and the merge of the
floors of one book of statement numbers into another.

Makes a program over the crates of this repository in a folder of its own and builds it with `rt run`, which proves it first. Wanted: a copy
of 100,000 keys costs 15 times one of 10,000 at most, and so do the floors and the merge of 100,000 sessions. Prints also, with no bound,
what a written key costs that is among 100,000 changed keys beside 1,000, and a look-up in a book after a merge beside before. A copy is
made of `reserve_batch`, `next_batch`, one write of a key that was handed out, `reserve` and `apply` at the recipient, and `acked`, until
nothing is left; the merge is of sessions that lie between those of the book. Each figure is the least of some rounds. With $MOVES_FOLDER
the program is made in that folder and stays there. Ends with status 1 where a wanted bound does not hold. Usage: moves.py [ROUNDS]
"""
import contextlib
import os
import pathlib
import shutil
import subprocess
import sys
import tempfile

TOP = pathlib.Path(__file__).resolve().parent.parent

# the crates that the program names; those below them are found in crates.txt
NAMED = (
    "migration_source",
    "migration_recipient",
    "mvcc_collection",
    "shard_records",
    "record_model",
    "session_book",
    "statement_views",
    "cluster_base",
    "value_compare",
    "bson_values",
)

MAIN = """\
//! Prints lines of a name, a count and microseconds: copies of ranges, and merges of books.
#![tactic(auto)]

mod books;
mod copies;

use crate::books::print_merge;
use crate::copies::print_copy;
use std::io;

fn print_round(rt: &HostRuntime) -> io::Result<()> {
    print_copy(rt, 1000)?;
    print_copy(rt, 10_000)?;
    print_copy(rt, 100_000)?;
    print_merge(rt, 10_000)?;
    print_merge(rt, 100_000)
}

fn main(rt: HostRuntime) -> io::Result<()> {
    for _ in 0..ROUNDS {
        print_round(&rt)?;
    }
    Ok(())
}
"""

COPIES = """\
//! Copies of a moving range, from one collection into another.

ghost use Rattle.std.specs.Prelude.{◌≡◌, ◌<◌, ℕ, Some};
ghost use Rattle.bson_values.specs.Tree.{Datum};
ghost use Rattle.mvcc_collection.specs.Collections.{last_in};

use bson_values::{Aligned, Document, Memory, Value};
use cluster_base::{NodeId, RequestId, Time};
use migration_recipient::{Fit, Taking};
use migration_source::{GiveStage, Giving};
use mvcc_collection::Collection;
use shard_records::MoveBatch;
use std::alloc::Global;
use std::io;
use std::sync::Arc;
use std::time::Instant;
use value_compare::{Bound, Key, KeyRange};

/// A collection in which each version is later than those before.
#[derive(Drop)]
struct Growing {
    collection: Collection,
    next: u64,
    ghost below: { (k : Datum) (t : ℕ) → last_in collection k ≡ Some t → t < next },
}

impl Growing {
    fn new(alloc: Global) -> Growing {
        Growing {
            collection: Collection::new(alloc),
            next: 0,
        }
    }

    fn put(&mut self, key: &Key, document: &Arc<Document, Global>) -> Result<(), Memory> {
        if self.next == u64::MAX {
            return Ok(());
        }
        let document = Arc::try_clone(document)?;
        self.collection.reserve(key)?;
        self.collection.put(key, Time(self.next), Some(document));
        self.next += 1;
        Ok(())
    }

    fn put_all(&mut self, keys: &[Key], document: &Arc<Document, Global>) -> Result<(), Memory> {
        for key in keys {
            self.put(key, document)?;
        }
        Ok(())
    }

    // Applies the batch, if it is the next.
    fn arrive(&mut self, taking: &mut Taking, batch: MoveBatch) -> Result<(), Memory> {
        if self.next == u64::MAX {
            return Ok(());
        }
        match taking.fits(&batch) {
            Fit::Next => {
                taking.reserve(&batch, &mut self.collection)?;
                taking.apply(batch, &mut self.collection, Time(self.next));
                self.next += 1;
                Ok(())
            }
            _ => Ok(()),
        }
    }
}

/// The two sides of a copy.
#[derive(Drop)]
struct Sides {
    source: Growing,
    giving: Giving,
    recipient: Growing,
    taking: Taking,
}

impl Sides {
    // A copy of a range of all keys that is not begun.
    fn new(alloc: Global) -> Result<Sides, Memory> {
        let Some(range) = KeyRange::new(Bound::MinKey, Bound::MaxKey) else {
            return Err(Memory);
        };
        let id = RequestId {
            router: NodeId(1),
            life: 1,
            count: 1,
        };
        let giving = Giving::start(alloc, id, range.copy()?);
        Ok(Sides {
            source: Growing::new(alloc),
            giving,
            recipient: Growing::new(alloc),
            taking: Taking::start(id, range),
        })
    }

    fn write(&mut self, key: &Key, document: &Arc<Document, Global>) -> Result<(), Memory> {
        self.source.put(key, document)?;
        self.giving.reserve(key)?;
        self.giving.changed(key);
        Ok(())
    }

    fn mark_all(&mut self, keys: &[Key]) -> Result<u32, Memory> {
        let mut count = 0u32;
        for key in keys {
            self.giving.reserve(key)?;
            self.giving.changed(key);
            count = count.saturating_add(1);
        }
        Ok(count)
    }

    // Returns the next batch, if the one before is answered.
    fn next(&mut self) -> Result<Option<MoveBatch>, Memory> {
        self.giving.reserve_batch(&self.source.collection)?;
        if let GiveStage::Unanswered(_) = self.giving.stage() {
            return Ok(None);
        }
        Ok(Some(self.giving.next_batch(&self.source.collection)))
    }

    // One batch from one side to the other, with a write of the key between while documents are left. Returns whether there was one.
    fn step(&mut self, key: &Key, document: &Arc<Document, Global>) -> Result<bool, Memory> {
        let stage = self.giving.stage();
        if stage == (GiveStage::AtEnd { left: false }) {
            return Ok(false);
        }
        let Some(batch) = self.next()? else {
            return Ok(false);
        };
        let number = batch.number;
        if stage == GiveStage::Ready {
            self.write(key, document)?;
        }
        self.recipient.arrive(&mut self.taking, batch)?;
        self.giving.acked(number);
        Ok(true)
    }

    // Copies all; a write between two batches is of the next of the keys. Returns the number of the batches.
    fn copy(&mut self, keys: &[Key], document: &Arc<Document, Global>) -> Result<u32, Memory> {
        let mut batches = 0u32;
        for key in keys {
            if !self.step(key, document)? {
                return Ok(batches);
            }
            batches = batches.saturating_add(1);
        }
        Ok(batches)
    }

    // Returns how many of the keys have a document at the recipient.
    fn copied_of(&self, keys: &[Key]) -> u32 {
        let mut count = 0u32;
        for key in keys {
            if self.recipient.collection.get(key).is_some() {
                count = count.saturating_add(1);
            }
        }
        count
    }
}

// So many keys in their order.
fn keys_of(alloc: Global, count: i32) -> Result<Vec<Key>, Memory> {
    let mut keys = Vec::new(alloc);
    for number in 0..count {
        let Ok(key) = Key::of(Value::Int32(Aligned::of(number))) else {
            return Ok(keys);
        };
        keys.push(key)?;
    }
    Ok(keys)
}

fn print(rt: &HostRuntime, name: &str, keys: i32, start: &Instant, count: u32) -> io::Result<()> {
    let micros = start.elapsed(rt)?.as_micros();
    println!(rt; "{name}-{keys} {count} {micros}")?;
    Ok(())
}

// Prints what a copy of so many keys costs, and then a note of each of them once all are among the changed ones.
fn print_steps(
    rt: &HostRuntime,
    sides: &mut Sides,
    keys: &[Key],
    document: &Arc<Document, Global>,
    count: i32,
) -> io::Result<()> {
    let start = Instant::now(rt)?;
    let batches = sides.copy(keys, document).unwrap_or(0);
    print(rt, "copy", count, &start, batches)?;
    let start = Instant::now(rt)?;
    let copied = sides.copied_of(keys);
    print(rt, "copied", count, &start, copied)?;
    let _ = sides.mark_all(keys);
    let start = Instant::now(rt)?;
    let marked = sides.mark_all(keys).unwrap_or(0);
    print(rt, "changed", count, &start, marked)
}

/// Prints what a copy of so many keys costs.
pub fn print_copy(rt: &HostRuntime, count: i32) -> io::Result<()> {
    let alloc = rt.alloc();
    let Ok(keys) = keys_of(alloc, count) else {
        return Ok(());
    };
    let Ok(document) = Arc::new(alloc, Document::new(alloc)) else {
        return Ok(());
    };
    let Ok(mut sides) = Sides::new(alloc) else {
        return Ok(());
    };
    let _ = sides.source.put_all(&keys, &document);
    print_steps(rt, &mut sides, &keys, &document, count)
}
"""

BOOKS = """\
//! Merges of one book's floors into another.

use bson_values::Memory;
use byteorder::{BigEndian, ByteOrder};
use cluster_base::{Session, Stmt, Time};
use session_book::{Book, Seen};
use std::alloc::Global;
use std::io;
use std::time::Instant;
use value_compare::Reply;

// The number of the first statement of the first transaction in a client's session; identifiers rise with the sessions.
fn statement(session: u32) -> Stmt {
    let mut id = [0; 16];
    BigEndian::write_u32(&mut id, session);
    Stmt {
        session: Session::Client(id),
        txn: 1,
        index: 0,
    }
}

// The statements of so many sessions: each second one, from the first or from the second on.
fn statements_of(alloc: Global, first: u32, count: u32) -> Result<Vec<Stmt>, Memory> {
    let mut statements = Vec::new(alloc);
    for place in 0..count {
        statements.push(statement(place.saturating_mul(2).saturating_add(first)))?;
    }
    Ok(statements)
}

fn note(book: &mut Book, s: &Stmt) -> Result<(), Memory> {
    if !book.is_new(s) {
        return Ok(());
    }
    book.reserve(s)?;
    book.note(
        s,
        Time(1),
        Reply {
            n: 1,
            modified: 0,
            upserted: None,
            code: 0,
        },
    );
    Ok(())
}

fn book_of(alloc: Global, statements: &[Stmt]) -> Result<Book, Memory> {
    let mut book = Book::new(alloc);
    for s in statements {
        note(&mut book, s)?;
    }
    Ok(book)
}

// How many of the statements were done.
fn done_of(book: &Book, statements: &[Stmt]) -> u32 {
    let mut done = 0u32;
    for s in statements {
        if let Seen::Done { .. } = book.look(s) {
            done = done.saturating_add(1);
        }
    }
    done
}

fn merge(own: &mut Book, other: &Book) -> Result<(), Memory> {
    let floors = other.floors()?;
    own.reserve_merge(&floors)?;
    own.merge(floors);
    Ok(())
}

fn print(rt: &HostRuntime, name: &str, sessions: u32, start: &Instant, count: u32) -> io::Result<()> {
    let micros = start.elapsed(rt)?.as_micros();
    println!(rt; "{name}-{sessions} {count} {micros}")?;
    Ok(())
}

// Prints what look-ups cost before and after the merge, and the merge.
fn print_steps(
    rt: &HostRuntime,
    own: &mut Book,
    other: &Book,
    statements: &[Stmt],
    sessions: u32,
) -> io::Result<()> {
    let start = Instant::now(rt)?;
    let done = done_of(own, statements);
    print(rt, "before", sessions, &start, done)?;
    let start = Instant::now(rt)?;
    let merged = merge(own, other).is_ok();
    print(rt, "merge", sessions, &start, if merged { sessions } else { 0 })?;
    let start = Instant::now(rt)?;
    let done = done_of(own, statements);
    print(rt, "after", sessions, &start, done)
}

/// Prints what the floors and the merge of so many sessions cost.
pub fn print_merge(rt: &HostRuntime, sessions: u32) -> io::Result<()> {
    let alloc = rt.alloc();
    let Ok(own_statements) = statements_of(alloc, 0, sessions) else {
        return Ok(());
    };
    let Ok(statements) = statements_of(alloc, 1, sessions) else {
        return Ok(());
    };
    let Ok(mut own) = book_of(alloc, &own_statements) else {
        return Ok(());
    };
    let Ok(other) = book_of(alloc, &statements) else {
        return Ok(());
    };
    print_steps(rt, &mut own, &other, &own_statements, sessions)
}
"""

# where the program's conditions are proved as those of the rows are
ARRIVE = """\
use Rattle.std.proofs.Common.{◌∙◌, sym}
use Rattle.measure.proofs.Later.{later_than_all}
use Rattle.measure.proofs.copies.Growing.arrive.Goals as goal

pub apply-requires-clause-later : goal.apply-requires-clause-later
apply-requires-clause-later c =
    later_than_all c.reserve.new.c c.args.self.now.next (λ k t e. c.args.self.now.below k t (sym (c.reserve.ensures.same.last k) ∙ e)) _
"""


def crates_below(names):
    """The lines of crates.txt of these crates and of those below them."""
    lines = [line for line in (TOP / "crates.txt").read_text().splitlines() if line and not line.startswith("#")]
    below = {line.split(":")[0]: line.split(":")[1].split() for line in lines}
    wanted, left = set(), list(names)
    while left:
        name = left.pop()
        if name in below and name not in wanted:
            wanted.add(name)
            left += below[name]
    return [line for line in lines if line.split(":")[0] in wanted]


def program(top, rounds):
    """A repository with the crates that the program rests on, and the program."""
    lines = crates_below(NAMED)
    ignored = shutil.ignore_patterns("out", "must-fail", "more-edits")
    for name in [line.split(":")[0] for line in lines] + ["measure"]:
        for part in ("src", "specs", "proofs"):
            shutil.rmtree(top / "crates" / name / part, ignore_errors=True)
    for line in lines:
        name = line.split(":")[0]
        shutil.copytree(TOP / "crates" / name, top / "crates" / name, ignore=ignored, dirs_exist_ok=True)
    (top / "crates.txt").write_text("\n".join([*lines, f"measure: {' '.join(NAMED)} byteorder"]) + "\n")
    crate = top / "crates" / "measure"
    files = {
        "src/main.rt": MAIN.replace("ROUNDS", str(rounds)),
        "src/copies.rt": COPIES,
        "src/books.rt": BOOKS,
        "proofs/Lib.antt": "pub mod Later\n",
        "proofs/Later.antt": (TOP / "crates/arrival_rows/proofs/Later.antt").read_text(),
        "proofs/copies/Growing/arrive/Answers.antt": ARRIVE,
    }
    for path, text in files.items():
        (crate / path).parent.mkdir(parents=True, exist_ok=True)
        (crate / path).write_text(text)
    return crate


def figures(printed, rounds):
    """The count and the least nanoseconds of all rounds of each kind."""
    lines = [line.split() for line in printed.splitlines()]
    each = len(lines) // rounds
    kinds = [(name, int(count)) for name, count, _ in lines[:each]]
    if [(name, int(count)) for name, count, _ in lines] != kinds * rounds or min(count for _, count in kinds) == 0:
        sys.exit(f"rounds differ, or nothing was done: {kinds}")
    return {name: (count, min(int(line[2]) for line in lines[at::each]) * 1000) for at, (name, count) in enumerate(kinds)}


def main():
    rounds = int(sys.argv[1]) if len(sys.argv) > 1 else 7
    kept = os.environ.get("MOVES_FOLDER")
    with contextlib.nullcontext(kept) if kept else tempfile.TemporaryDirectory() as folder:
        crate = program(pathlib.Path(folder), rounds)
        subprocess.run(["rt", "run"], cwd=crate, stdin=subprocess.DEVNULL, stdout=subprocess.DEVNULL, check=True)
        printed = subprocess.run([crate / "out" / "measure"], stdout=subprocess.PIPE, check=True).stdout.decode()
    got = figures(printed, rounds)
    for keys in (1000, 10_000, 100_000):
        if got[f"copied-{keys}"][0] != keys:
            sys.exit(f"not all of {keys} keys were copied: {got}")
    good = True
    for name, of in (("a copy", "copy"), ("floors and merge", "merge")):
        (least, small), (most, large) = got[f"{of}-10000"], got[f"{of}-100000"]
        of_what = f"{most} batches beside {least}" if of == "copy" else "sessions"
        print(f"{name} of 100,000 to 10,000 ({of_what}): {large / 1e6:.1f} ms, {small / 1e6:.1f} ms: {large / small:.2f} times (at most 15)")
        good = good and large <= 15 * small
    for name, one, other in (
        ("a written key among 100,000 changed keys, to 1,000", "changed-100000", "changed-1000"),
        ("a look-up after a merge of 100,000 sessions, to before", "after-100000", "before-100000"),
    ):
        high, low = got[one][1] / got[one][0], got[other][1] / got[other][0]
        print(f"{name}: {high:.0f} ns, {low:.0f} ns: {high / low:.2f} times (no bound)")
    sys.exit(0 if good else 1)


main()
