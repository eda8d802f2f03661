#!/usr/bin/env python3
"""Tries and measures a journal over a real file.

Makes a program over the crates of this repository in a folder of its own and builds it with `rt run` (which proves it).
Then, in one run: appends beside the syncs that the same file allows; a program that appends is killed by its own id and
its file is opened again, some times; a journal of many small records is opened and its memory is told.
Usage: journals.py [APPENDS] [KILLS] [RECORDS]
"""
import os
import pathlib
import random
import resource
import shutil
import signal
import struct
import subprocess
import sys
import tempfile
import time

TOP = pathlib.Path(__file__).resolve().parent.parent

BELOW = ("bson_model", "bson_values", "outside", "journal_frames")

PROGRAM = """\
//! Opens the journal in the file of the first word and tells how many records it has; then appends as many as the second
//! word says, and tells each that was acknowledged.
#![tactic(auto)]
ghost use Rattle.std.specs.Prelude.{IsTrue};

use journal_frames::Journal;
use outside::disk::Disk;
use outside::log::Log;
use outside::standard::FileDisk;
use std::env;
use std::io;
use std::io::Write;

const RECORD: &[u8] = b"sixteen bytes ..";

fn append_all<D: Disk, W: Write>(out: &mut W, journal: &mut Journal<D>, count: u64) -> io::Result<()>
    requires { IsTrue journal.old.is_open }
{
    for _ in 0..count {
        let Ok(()) = journal.append(RECORD) else {
            return Ok(());
        };
        out.write_all(b"+")?;
        out.flush()?;
    }
    Ok(())
}

fn main(rt: HostRuntime) -> io::Result<()> {
    let words = env::args(&rt)?;
    let mut path = String::new(rt.alloc());
    let mut count = 0;
    for (i, word) in words.enumerate() {
        if i == 1 {
            path.push_str(word.as_str())?;
        }
        if i == 2 {
            count = word.parse::<u64>().unwrap_or(0);
        }
    }
    match Journal::open(rt.alloc(), FileDisk::new(rt, path)) {
        Ok(journal) => {
            let mut journal = journal;
            let before = journal.records().as_slice().len();
            println!(rt; "{before}")?;
            append_all(&mut rt.stdout(), &mut journal, count)
        }
        Err(_fault) => {
            println!(rt; "failed")?;
            Ok(())
        }
    }
}
"""

INVARIANT = """\
use Rattle.std.proofs.Common.{IsTrue}
use Rattle.trial.proofs.append_all.Given as goal

abbrev pub invariant-loop : goal.invariant-loop
invariant-loop g l = IsTrue l.journal.is_open
"""


def program(top):
    """A repository with the crates that the program stands on, and the program."""
    for name in BELOW:
        shutil.copytree(TOP / "crates" / name, top / "crates" / name, ignore=shutil.ignore_patterns("out", "must-fail"))
    starts = tuple(name + ":" for name in BELOW)
    lines = [line for line in (TOP / "crates.txt").read_text().splitlines() if line.startswith(starts)]
    (top / "crates.txt").write_text("\n".join(lines + ["trial: outside journal_frames"]) + "\n")
    crate = top / "crates" / "trial"
    (crate / "src").mkdir(parents=True)
    (crate / "src" / "main.rt").write_text(PROGRAM)
    (crate / "proofs" / "append_all").mkdir(parents=True)
    (crate / "proofs" / "append_all" / "Invariants.antt").write_text(INVARIANT)
    return crate


def measure(binary, folder, appends):
    """Appends, and syncs of as many bytes behind the same file, in one run."""
    path = folder / "measured"
    start = time.monotonic()
    told = subprocess.run([binary, path, str(appends)], stdout=subprocess.PIPE, check=True).stdout
    appending = time.monotonic() - start
    if told.count(b"+") != appends:
        sys.exit(f"only {told.count(b'+')} of {appends} appends were acknowledged")
    with open(path, "r+b", buffering=0) as file:
        file.seek(0, os.SEEK_END)
        start = time.monotonic()
        for _ in range(appends):
            file.write(b"x" * 25)
            os.fsync(file.fileno())
        syncing = time.monotonic() - start
    print(f"{appends} appends: {appends / appending:.0f} a second; syncs: {appends / syncing:.0f} a second; "
          f"an append takes {appending / syncing:.2f} times as long as a sync")


def kill(binary, path, total):
    """Kills the program while it appends; gives how many records stand then, by the next opening's count."""
    running = subprocess.Popen([binary, path, "1000000"], stdout=subprocess.PIPE)
    before = int(running.stdout.readline())
    acknowledged = len(running.stdout.read(random.randrange(1, 200)))
    os.kill(running.pid, signal.SIGKILL)
    acknowledged += len(running.stdout.read())
    running.wait()
    after = int(subprocess.run([binary, path, "0"], stdout=subprocess.PIPE, check=True).stdout.split()[0])
    if before != total or not total + acknowledged <= after <= total + acknowledged + 1:
        sys.exit(f"{before} records, {acknowledged} acknowledged, {after} found")
    return after


def most_memory(binary, path):
    """The most memory of the program, in KiB, by the time that it tells how many records there are."""
    reader, writer = os.pipe()
    # A full pipe holds the program there.
    os.set_blocking(writer, False)
    try:
        while True:
            os.write(writer, b" " * 4096)
    except BlockingIOError:
        os.set_blocking(writer, True)
    running = subprocess.Popen([binary, path, "0"], stdout=writer)
    os.close(writer)
    status = pathlib.Path(f"/proc/{running.pid}/status")
    while "State:\tS" not in status.read_text():
        time.sleep(0.1)
    time.sleep(1)
    line = next(line for line in status.read_text().splitlines() if line.startswith("VmHWM"))
    while os.read(reader, 65536):
        pass
    os.close(reader)
    running.wait()
    return int(line.split()[1])


def memory(binary, folder, records):
    """The most memory that opening takes, for an empty journal and for one of many records of 16 bytes."""
    told = []
    for count in (0, records):
        path = folder / f"records{count}"
        record = b"\1" + struct.pack("<Q", 16) + b"sixteen bytes .."
        path.write_bytes(record * count + b"\0")
        told.append(most_memory(binary, path))
    print(f"opening {records} records of 16 bytes takes {told[1] - told[0]} KiB above {told[0]} KiB")


def main():
    appends = int(sys.argv[1]) if len(sys.argv) > 1 else 500
    kills = int(sys.argv[2]) if len(sys.argv) > 2 else 20
    records = int(sys.argv[3]) if len(sys.argv) > 3 else 100_000
    with tempfile.TemporaryDirectory() as name:
        folder = pathlib.Path(name)
        crate = program(folder)
        subprocess.run(["rt", "run"], cwd=crate, stdin=subprocess.DEVNULL, stdout=subprocess.DEVNULL, check=True)
        binary = crate / "out" / "trial"
        measure(binary, folder, appends)
        total = 0
        for _ in range(kills):
            total = kill(binary, folder / "killed", total)
        print(f"{kills} kills: each opening found what was acknowledged, or one record more; {total} records at the end")
        memory(binary, folder, records)


main()
