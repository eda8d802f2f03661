#!/usr/bin/env python3
"""Measures, in one run, what pipelines cost over 20,000 documents, and how that grows: a filter, a group, a sort, the first of a sort, and
the merging of four sorted parts.

Makes a program over the crates of this repository in a folder of its own, builds it with `rt run` (which proves it) and hands it the
pipelines and the documents. Wanted: the first 10 of a sort cost a fifth of the whole sort at most; a filter and a group into 10 groups
cost 1.3 times as much for each document in a list of 20,000 as in ten lists of 2,000 at most, a whole sort 1.6 times; merging four
sorted parts of 5,000 costs no more than sorting the documents. Tells what sorting the rows of these parts costs, one part behind the
other. The ten lists have the same documents as the one, and all lists are made before the clock runs; documents come in the order of a
fixed stride. Each figure is the least of some rounds. Ends with status 1 where a wanted bound does not hold.
Usage: pipelines.py [ROUNDS]
"""
import pathlib
import shutil
import struct
import subprocess
import sys
import tempfile

TOP = pathlib.Path(__file__).resolve().parent.parent

# the crates that the program names; those below them are found in crates.txt
NAMED = ("group_merge", "pipeline_eval", "pipeline_split", "pipeline_lang", "bson_values")

DOCUMENTS = 20_000

PROGRAM = """\
//! Tells lines of a name, a count and microseconds: what pipelines cost over documents, in lists of so many. On standard input stand
//! four documents, each with a pipeline, a filter, a group, a sort, and the same sort with a limit behind it; and then the documents,
//! each of these behind its length in four bytes.
#![tactic(auto)]

ghost use Rattle.std.specs.Prelude.{◌<◌};

use bson_values::{Document, Memory, Value, read};
use byteorder::{ByteOrder, LittleEndian};
use group_merge::merge;
use pipeline_eval::{EvalFault, Rows, eval, eval_half};
use pipeline_lang::{Half, Merge, Pipeline};
use pipeline_split::split;
use std::alloc::Global;
use std::io::{self, Read};
use std::sync::Arc;
use std::time::Instant;

/// The pipelines that are measured.
#[derive(Drop)]
struct Asked {
    scan: Pipeline,
    group: Pipeline,
    sort: Pipeline,
    first: Pipeline,
}

// The next document, and the bytes behind it.
fn next_document(alloc: Global, bytes: &[u8]) -> Option<(Document, &[u8])> {
    if bytes.len() < 4 {
        return None;
    }
    let (length, rest) = bytes.split_at(4);
    let length = LittleEndian::read_u32(length) as usize;
    if rest.len() < length {
        return None;
    }
    let (spelled, behind) = rest.split_at(length);
    match read(alloc, spelled) {
        Ok((document, _length)) => Some((document, behind)),
        Err(_fault) => None,
    }
}

fn pipeline_in(alloc: Global, document: &Document) -> Option<Pipeline> {
    match document.get("p") {
        Some(Value::Array(array)) => Pipeline::parse(alloc, array).ok(),
        _ => None,
    }
}

// The next pipeline, and the bytes behind it.
fn next_pipeline(alloc: Global, bytes: &[u8]) -> Option<(Pipeline, &[u8])> {
    let (document, rest) = next_document(alloc, bytes)?;
    let pipeline = pipeline_in(alloc, &document)?;
    Some((pipeline, rest))
}

// The pipelines, and the bytes behind them.
fn asked_in(alloc: Global, bytes: &[u8]) -> Option<(Asked, &[u8])> {
    let (scan, rest) = next_pipeline(alloc, bytes)?;
    let (group, rest) = next_pipeline(alloc, rest)?;
    let (sort, rest) = next_pipeline(alloc, rest)?;
    let (first, rest) = next_pipeline(alloc, rest)?;
    let asked = Asked {
        scan,
        group,
        sort,
        first,
    };
    Some((asked, rest))
}

fn documents_in(alloc: Global, bytes: &[u8]) -> Result<Vec<Arc<Document, Global>>, Memory> {
    let mut documents = Vec::new(alloc);
    let mut rest = bytes;
    for _ in 0..COUNT {
        let Some((document, behind)) = next_document(alloc, rest) else {
            return Ok(documents);
        };
        documents.push(Arc::new(alloc, document)?)?;
        rest = behind;
    }
    Ok(documents)
}

// The documents, each shared once more.
fn shared(alloc: Global, documents: &[Arc<Document, Global>]) -> Result<Vec<Arc<Document, Global>>, Memory> {
    let mut all = Vec::with_capacity(alloc, documents.len())?;
    for document in documents {
        all.push(Arc::try_clone(document)?)?;
    }
    Ok(all)
}

// The documents in lists of so many.
fn lists_of(
    alloc: Global,
    documents: &[Arc<Document, Global>],
    each: usize,
) -> Result<Vec<Vec<Arc<Document, Global>>>, Memory>
    requires { 0 < each }
{
    let mut lists = Vec::new(alloc);
    for list in documents.chunks(each) {
        lists.push(shared(alloc, list)?)?;
    }
    Ok(lists)
}

// How many documents the pipeline answered on, a list after the other.
fn eval_each(
    alloc: Global,
    pipeline: &Pipeline,
    lists: Vec<Vec<Arc<Document, Global>>>,
) -> Result<usize, EvalFault> {
    let mut count = 0usize;
    for list in lists {
        count = count.saturating_add(list.len());
        let _left = eval(alloc, pipeline, list)?;
    }
    Ok(count)
}

fn tell(rt: &HostRuntime, name: &str, each: usize, start: &Instant, count: usize) -> io::Result<()> {
    let micros = start.elapsed(rt)?.as_micros();
    println!(rt; "{name}-{each} {count} {micros}")?;
    Ok(())
}

fn tell_pipeline(
    rt: &HostRuntime,
    name: &str,
    pipeline: &Pipeline,
    documents: &[Arc<Document, Global>],
    each: usize,
) -> io::Result<()>
    requires { 0 < each }
{
    let Ok(lists) = lists_of(rt.alloc(), documents, each) else {
        return Ok(());
    };
    let start = Instant::now(rt)?;
    let count = eval_each(rt.alloc(), pipeline, lists).unwrap_or(0);
    tell(rt, name, each, &start, count)
}

fn rows_of(alloc: Global, half: &Half, documents: &[Arc<Document, Global>]) -> Result<Vec<Rows>, EvalFault> {
    let mut all = Vec::new(alloc);
    for part in documents.chunks(5000) {
        let rows = eval_half(alloc, half, shared(alloc, part)?)?;
        all.push(rows)?;
    }
    Ok(all)
}

// The documents of the rows, one part behind the other.
fn joined(alloc: Global, all: &[Rows]) -> Result<Vec<Arc<Document, Global>>, Memory> {
    let mut documents = Vec::new(alloc);
    for rows in all {
        if let Rows::Docs(list) = rows {
            let mut part = shared(alloc, list)?;
            documents.append(&mut part)?;
        }
    }
    Ok(documents)
}

fn tell_merged(rt: &HostRuntime, by: &Merge, parts: Vec<Rows>) -> io::Result<()> {
    let start = Instant::now(rt)?;
    let count = match merge(rt.alloc(), by, parts) {
        Ok(documents) => documents.len(),
        Err(_fault) => 0,
    };
    tell(rt, "merge", 5000, &start, count)
}

// Merges four sorted parts, and sorts their rows.
fn tell_parts(rt: &HostRuntime, sort: &Pipeline, documents: &[Arc<Document, Global>]) -> io::Result<()> {
    let Ok((half, by)) = split(rt.alloc(), sort) else {
        return Ok(());
    };
    let Ok(parts) = rows_of(rt.alloc(), &half, documents) else {
        return Ok(());
    };
    let Ok(rows) = joined(rt.alloc(), &parts) else {
        return Ok(());
    };
    tell_merged(rt, &by, parts)?;
    tell_pipeline(rt, "rows", sort, &rows, 20_000)
}

fn tell_round(rt: &HostRuntime, asked: &Asked, documents: &[Arc<Document, Global>]) -> io::Result<()> {
    tell_pipeline(rt, "scan", &asked.scan, documents, 2000)?;
    tell_pipeline(rt, "scan", &asked.scan, documents, 20_000)?;
    tell_pipeline(rt, "group", &asked.group, documents, 2000)?;
    tell_pipeline(rt, "group", &asked.group, documents, 20_000)?;
    tell_pipeline(rt, "sort", &asked.sort, documents, 2000)?;
    tell_pipeline(rt, "sort", &asked.sort, documents, 20_000)?;
    tell_pipeline(rt, "first", &asked.first, documents, 20_000)?;
    tell_parts(rt, &asked.sort, documents)
}

fn main(rt: HostRuntime) -> io::Result<()> {
    let mut bytes = Vec::new(rt.alloc());
    rt.stdin().read_to_end(&mut bytes)?;
    let Some((asked, rest)) = asked_in(rt.alloc(), &bytes) else {
        return Ok(());
    };
    let Ok(documents) = documents_in(rt.alloc(), rest) else {
        return Ok(());
    };
    for _ in 0..ROUNDS {
        tell_round(&rt, &asked, &documents)?;
    }
    Ok(())
}
"""


def framed(body):
    return struct.pack("<i", len(body) + 5) + body + b"\0"


def field(name, value):
    """A field, of a whole number, a string, a list, or a document as a dict."""
    if isinstance(value, int):
        kind, spelled = 0x10, struct.pack("<i", value)
    elif isinstance(value, str):
        kind, spelled = 0x02, struct.pack("<i", len(value) + 1) + value.encode() + b"\0"
    elif isinstance(value, list):
        kind, spelled = 0x04, spell({str(i): each for i, each in enumerate(value)})
    else:
        kind, spelled = 0x03, spell(value)
    return bytes([kind]) + name.encode() + b"\0" + spelled


def spell(document):
    return framed(b"".join(field(name, value) for name, value in document.items()))


def behind_length(document):
    spelled = spell(document)
    return struct.pack("<I", len(spelled)) + spelled


def pipelines():
    """A filter that half of the documents meet, a group into 10 groups, a sort, and its first 10."""
    sort = {"$sort": {"x": 1}}
    return (
        [{"$match": {"x": {"$gt": DOCUMENTS // 2}}}],
        [{"$group": {"_id": "$k", "n": {"$count": {}}, "s": {"$sum": "$x"}}}],
        [sort],
        [sort, {"$limit": 10}],
    )


def document(number):
    return {"_id": number, "k": number % 10, "x": number * 7919 % DOCUMENTS, "name": f"entry number {number}"}


def crates_below(names):
    """The lines of crates.txt of these crates and of those below them."""
    lines = [line for line in (TOP / "crates.txt").read_text().splitlines() if line and not line.startswith("#")]
    below = {line.split(":")[0]: line.split(":")[1].split() for line in lines}
    wanted, left = set(), list(names)
    while left:
        name = left.pop()
        if name in below and name not in wanted:
            wanted.add(name)
            left += below[name]
    return [line for line in lines if line.split(":")[0] in wanted]


def program(top, rounds):
    """A repository with the crates that the program stands on, and the program."""
    lines = crates_below(NAMED)
    ignored = shutil.ignore_patterns("out", "must-fail", "more-edits")
    for line in lines:
        name = line.split(":")[0]
        shutil.copytree(TOP / "crates" / name, top / "crates" / name, ignore=ignored)
    (top / "crates.txt").write_text("\n".join([*lines, f"measure: {' '.join(NAMED)} byteorder"]) + "\n")
    source = top / "crates" / "measure" / "src"
    source.mkdir(parents=True)
    (source / "main.rt").write_text(PROGRAM.replace("ROUNDS", str(rounds)).replace("COUNT", str(DOCUMENTS)))
    return top / "crates" / "measure"


def figures(told, rounds):
    """The nanoseconds for one document of each kind, the least of all rounds."""
    lines = [line.split() for line in told.splitlines()]
    each = len(lines) // rounds
    names = [name for name, _, _ in lines[:each]]
    if [name for name, _, _ in lines] != names * rounds or any(int(count) != DOCUMENTS for _, count, _ in lines):
        sys.exit(f"rounds differ, or not all was done: {lines[:each]}")
    return {name: min(int(line[2]) for line in lines[at::each]) * 1000 / DOCUMENTS for at, name in enumerate(names)}


def main():
    rounds = int(sys.argv[1]) if len(sys.argv) > 1 else 7
    given = b"".join(behind_length({"p": pipeline}) for pipeline in pipelines())
    given += b"".join(behind_length(document(number)) for number in range(DOCUMENTS))
    with tempfile.TemporaryDirectory() as folder:
        crate = program(pathlib.Path(folder), rounds)
        subprocess.run(["rt", "run"], cwd=crate, stdin=subprocess.DEVNULL, stdout=subprocess.DEVNULL, check=True)
        told = subprocess.run([crate / "out" / "measure"], input=given, stdout=subprocess.PIPE, check=True).stdout.decode()
    cost = figures(told, rounds)
    ratios = [
        ("the first 10 of a sort", "first-20000", "the whole sort", "sort-20000", 0.2),
        ("a filter of 20,000", "scan-20000", "of 2,000", "scan-2000", 1.3),
        ("a group of 20,000", "group-20000", "of 2,000", "group-2000", 1.3),
        ("a sort of 20,000", "sort-20000", "of 2,000", "sort-2000", 1.6),
        ("merging four sorted parts", "merge-5000", "sorting the documents", "sort-20000", 1),
        ("merging four sorted parts", "merge-5000", "sorting their rows", "rows-20000", None),
    ]
    good = True
    for name, one, other, least, bound in ratios:
        wanted = f"at most {bound}" if bound else "told"
        print(f"{name}: {cost[one]:.0f} ns a document, {other} {cost[least]:.0f} ns: {cost[one] / cost[least]:.2f} times ({wanted})")
        good = good and (bound is None or cost[one] <= bound * cost[least])
    sys.exit(0 if good else 1)


main()
