#!/usr/bin/env python3
"""Measures, in one run, what inserts cost the built program, beside the syncs and appends that the same disk allows.

Wanted: one link's acknowledged inserts a second are 0.45 times the disk's syncs a second at least; one message of 1,000 documents takes
at most 1 / 0.8 times as long as one append of as many bytes; an insert among 20,000 costs at most 1.3 times one among 2,000; and the
program takes 1.5 GB at most for a message of up to 48,000,000 bytes, also of many small fields. Where PostgreSQL is found
(`initdb`, `pg_ctl`, `psql`; as another user where this is root) it also tells how long one statement of 1,000 rows takes there, with
synchronous commit. The program is $CLUSTER, or the one that `cluster` builds. Client and program share one processor, so that no
figure is of how long a sleeping one takes to wake. With $SPEED_SYNC_MS each sync takes so many milliseconds more, here and in the program
(a library that is loaded before libc; wants `cc`): so a disk is measured that syncs as slowly as one that turns; then fewer inserts are
made, and neither their growth nor PostgreSQL is measured. Each figure is the best of some rounds. Ends with status 1 where a wanted
bound does not hold. Usage: speed.py [ROUNDS]
"""
import glob
import os
import pathlib
import shutil
import struct
import subprocess
import sys
import tempfile
import time

from inserts import built, document, element, text

PROGRAM = os.environ.get("CLUSTER") or built()

SYNC_MS = int(os.environ.get("SPEED_SYNC_MS", "0"))

SLOW_SYNC = """
#define _GNU_SOURCE
#include <dlfcn.h>
#include <time.h>
static int later(const char *name, int file) {
    struct timespec time = {%d / 1000, %d %% 1000 * 1000000L};
    int (*sync)(int) = (int (*)(int))dlsym(RTLD_NEXT, name);
    nanosleep(&time, 0);
    return sync(file);
}
int fsync(int file) { return later("fsync", file); }
int fdatasync(int file) { return later("fdatasync", file); }
"""


def environment(folder):
    """The program's environment: with the library that makes syncs slow, if they are to be."""
    if SYNC_MS == 0:
        return None
    source, library = pathlib.Path(folder) / "slow.c", pathlib.Path(folder) / "slow.so"
    source.write_text(SLOW_SYNC % (SYNC_MS, SYNC_MS))
    subprocess.run(["cc", "-shared", "-fPIC", "-o", library, source, "-ldl"], check=True)
    return {**os.environ, "LD_PRELOAD": str(library)}


TOOLS = tempfile.TemporaryDirectory()
ENVIRONMENT = environment(TOOLS.name)


def sync(file):
    time.sleep(SYNC_MS / 1000)
    os.fsync(file.fileno())


def int32(number):
    return struct.pack("<i", number)


def message(documents, request):
    """An ordered insert of these documents into d.c, by document sequence."""
    body = document(element(0x02, "insert", text("c")), element(0x02, "$db", text("d")))
    sequence = b"documents\0" + b"".join(documents)
    rest = struct.pack("<iii", request, 0, 2013) + int32(0) + b"\0" + body + b"\1" + int32(len(sequence) + 4) + sequence
    return int32(len(rest) + 4) + rest


def small(number):
    return document(element(0x10, "_id", int32(number)), element(0x10, "n", int32(number)))


def wide(number, fields):
    return document(element(0x10, "_id", int32(number)), fields)


class Link:
    """One connection to a program that was started in a folder of its own."""

    def __init__(self):
        self.folder = tempfile.TemporaryDirectory(dir=os.environ.get("SPEED_FOLDER"))
        self.program = subprocess.Popen([PROGRAM, "pipe"], cwd=self.folder.name, env=ENVIRONMENT, stdin=subprocess.PIPE, stdout=subprocess.PIPE)

    def ask(self, request):
        self.program.stdin.write(request)
        self.program.stdin.flush()
        head = self.program.stdout.read(4)
        if len(head) < 4:
            sys.exit(f"speed: no reply; status {self.program.wait()}")
        return head + self.program.stdout.read(struct.unpack("<i", head)[0] - 4)

    def end(self):
        """Ends the program. Gives the most memory that it had, in bytes."""
        self.program.stdin.close()
        _, _, usage = os.wait4(self.program.pid, 0)
        self.program.returncode = 0
        self.folder.cleanup()
        return usage.ru_maxrss * 1024


def syncs(count):
    """Seconds for each append of 100 bytes with a sync."""
    with tempfile.NamedTemporaryFile(dir=os.environ.get("SPEED_FOLDER"), buffering=0) as file:
        start = time.perf_counter()
        for _ in range(count):
            file.write(b"x" * 100)
            sync(file)
        return (time.perf_counter() - start) / count


def appended(size):
    """Seconds of one append of so many bytes, with a sync, and one of its gate."""
    with tempfile.NamedTemporaryFile(dir=os.environ.get("SPEED_FOLDER"), buffering=0) as file:
        start = time.perf_counter()
        file.write(b"x" * size)
        sync(file)
        os.pwrite(file.fileno(), b"\1", 0)
        sync(file)
        return time.perf_counter() - start


def inserts(count, last):
    """Seconds for each of the last of so many inserts by one link."""
    link = Link()
    for number in range(count - last):
        link.ask(message([small(number)], number))
    start = time.perf_counter()
    for number in range(count - last, count):
        link.ask(message([small(number)], number))
    took = (time.perf_counter() - start) / last
    link.end()
    return took


def thousand():
    """Seconds of one message of 1,000 documents, and the bytes that it left on the shard's journal."""
    link = Link()
    link.ask(message([small(0)], 0))
    journal = pathlib.Path(link.folder.name) / "node01.journal"
    before = journal.stat().st_size
    request = message([small(number) for number in range(1, 1001)], 1)
    start = time.perf_counter()
    link.ask(request)
    took = time.perf_counter() - start
    size = journal.stat().st_size - before
    link.end()
    return took, size


def memory(documents):
    """The most memory of the program for one message of these documents, in bytes."""
    link = Link()
    link.ask(message(documents, 0))
    return link.end()


class Postgres:
    """A server of its own with synchronous commit, where there is one."""

    def __init__(self):
        self.folder = tempfile.mkdtemp(dir=os.environ.get("SPEED_FOLDER"))
        self.user = ["setpriv", "--reuid=65534", "--regid=65534", "--clear-groups"] if os.getuid() == 0 else []
        if self.user:
            os.chown(self.folder, 65534, 65534)
        self.run("initdb", "-D", f"{self.folder}/data", "-U", "speed", "-A", "trust")
        self.run("pg_ctl", "-D", f"{self.folder}/data", "-w", "-o", f"-k {self.folder} -h ''", "-l", f"{self.folder}/log", "start")
        self.psql("create table c (id int primary key, n int)")

    def run(self, *words):
        subprocess.run([*self.user, *words], check=True, stdout=subprocess.DEVNULL, cwd=self.folder)

    def psql(self, *statements):
        words = [word for statement in statements for word in ("-c", statement)]
        ran = subprocess.run([*self.user, "psql", "-h", self.folder, "-U", "speed", "-d", "postgres", "-q", *words], check=True, capture_output=True, text=True)
        return ran.stdout

    def thousand(self):
        """Seconds of one statement of 1,000 rows, by the server's client."""
        rows = ",".join(f"({number},{number})" for number in range(1, 1001))
        told = self.psql("delete from c", "\\timing on", f"insert into c values {rows}")
        return float(told.split("Time:")[1].split()[0]) / 1000

    def end(self):
        self.run("pg_ctl", "-D", f"{self.folder}/data", "-m", "fast", "stop")
        shutil.rmtree(self.folder, ignore_errors=True)


def has_postgres():
    """Whether PostgreSQL's programs are found, on the path or where Debian has them, which is on the path from then on."""
    os.environ["PATH"] = os.pathsep.join([os.environ["PATH"], *sorted(glob.glob("/usr/lib/postgresql/*/bin"))])
    return all(shutil.which(word) for word in ("initdb", "pg_ctl", "psql"))


def postgres(rounds):
    """The least time of a statement of 1,000 rows there, or none."""
    if not has_postgres():
        return None
    server = Postgres()
    try:
        return min(server.thousand() for _ in range(rounds))
    finally:
        server.end()


def tell(name, value, bound, holds):
    print(f"{'ok' if holds else 'NOT MET'}: {name}: {value}, wanted {bound}")
    return holds


def main():
    rounds = int(sys.argv[1]) if len(sys.argv) > 1 else 3
    os.sched_setaffinity(0, {max(os.sched_getaffinity(0))})
    synced, few, many = [], [], []
    most = 60 if SYNC_MS else 500
    for _ in range(rounds):
        synced.append(syncs(most))
        few.append(inserts(2 * most if SYNC_MS else 2_000, most))
        if not SYNC_MS:
            many.append(inserts(20_000, most))
    ratio = min(synced) / min(few)
    held = [tell("inserts a second of one link to syncs a second", f"{1 / min(few):.0f} to {1 / min(synced):.0f}, {ratio:.2f}", "0.45", ratio >= 0.45)]
    if many:
        growth = min(many) / min(few)
        held.append(tell("an insert among 20,000 to one among 2,000", f"{growth:.2f}", "at most 1.3", growth <= 1.3))
    took, size = min(thousand() for _ in range(rounds))
    alone = min(appended(size) for _ in range(rounds))
    figure = f"{took * 1000:.2f} ms to {alone * 1000:.2f} ms, {alone / took:.2f}"
    held.append(tell(f"1,000 documents to one append of {size} bytes", figure, "0.8", alone >= 0.8 * took))
    other = None if SYNC_MS else postgres(rounds)
    if other is not None:
        held.append(tell("1,000 documents to a statement of 1,000 rows", f"{took * 1000:.2f} ms to {other * 1000:.2f} ms", "no more", took <= other))
    for name, documents in (
        ("one document of 16 MB of bytes", [wide(0, element(0x05, "b", int32(16_000_000) + b"\0" + b"x" * 16_000_000))]),
        ("three documents of empty documents", [wide(number, (b"\3\0" + document()) * (15_900_000 // 7)) for number in range(3)]),
        ("three documents of nulls", [wide(number, b"\x0a\0" * (15_900_000 // 2)) for number in range(3)]),
        ("100,000 documents", [wide(number, element(0x02, "t", text("x" * 440))) for number in range(100_000)]),
    ):
        most = memory(documents)
        held.append(tell(f"memory for a message of {name}", f"{most / 1e9:.2f} GB", "at most 1.5 GB", most <= 1_500_000_000))
    sys.exit(0 if all(held) else 1)


if __name__ == "__main__":
    main()
