#!/usr/bin/env -S python3 -B
"""Starts the built program twice in one folder at the same moment, and over journals that are one file.

The program is $CLUSTER, or the one that `cluster` builds. Each try has a folder of its own. Two starts of the program
wait for one file, and begin when it is made; each is sent inserts of its own. One must serve all that it was sent, and
the other end with status 5, its line and no reply; the shard's journal must then hold just the documents that were
acknowledged, in order, and the catalogue's the one collection. Then one start over two journals that are one file, by a
hard link and by a symbolic link, in each pair of places: it must end with status 5 and its line, and leave the file
empty.

    bench/two_starts.py [TRIES]
"""
import itertools
import os
import pathlib
import subprocess
import sys
import tempfile
import time

from inserts import EACH, built, entries as held_in, insert, is_acknowledged, kept, numbers_of, records

PROGRAM = os.environ.get("CLUSTER") or built()

JOURNALS = ["node00.journal", "node01.journal", "node02.journal"]

# The requests that each start is sent: few enough that they and their replies fit into a pipe.
REQUESTS = 40

# How long a start may take to end, in seconds.
PATIENCE = 10

TAKEN = (5, b"cluster: disk failed\n")


def start(folder, number):
    """A start of the program that waits for the file `go`, with its requests in its input."""
    waiting = 'while [ ! -e ../go ]; do :; done; exec "$0" pipe'
    started = subprocess.Popen(["sh", "-c", waiting, PROGRAM], cwd=folder, stdin=subprocess.PIPE, stdout=subprocess.PIPE, stderr=subprocess.PIPE)
    for request in requests_of(number):
        started.stdin.write(insert(request))
    started.stdin.flush()
    return started


def requests_of(number):
    """The requests of the start of that number."""
    return range(number * REQUESTS, number * REQUESTS + REQUESTS)


def first_ended(starts):
    """Waits until one of the starts has ended, while the input of each is open."""
    end = time.monotonic() + PATIENCE
    while all(it.poll() is None for it in starts) and time.monotonic() < end:
        time.sleep(0.001)


def acknowledged_by(started):
    """Closes a start's input and waits for its end. Gives how many requests it acknowledged, its status and its line."""
    try:
        started.stdin.close()
    except BrokenPipeError:
        pass
    count = 0
    while is_acknowledged(started.stdout):
        count += 1
    line = started.stderr.read()
    return count, (started.wait(PATIENCE), line)


def one_try(top):
    """Two starts at one moment. Gives the number of the start that served, how many entries it acknowledged and what is wrong."""
    folder = top / "at"
    folder.mkdir()
    starts = [start(folder, number) for number in range(2)]
    (top / "go").touch()
    first_ended(starts)
    ended = [acknowledged_by(it) for it in starts]
    served = [number for number in range(2) if ended[number][1] == (0, b"")]
    entries = [number for start in range(2) for request in requests_of(start)[: ended[start][0]] for number in numbers_of(request)]
    return served, len(entries), "; ".join(faults_of(folder, served, ended, entries))


def faults_of(folder, served, ended, entries):
    """What is wrong after two starts: of their ends, and of the journals where these entries were acknowledged."""
    held = held_in(folder / JOURNALS[1])
    lost = sum(not any(kept(number) in record for record in held) for number in entries)
    if lost:
        yield f"{lost} of {len(entries)} acknowledged entries are lost"
    if len(served) != 1 or ended[1 - served[0]] != (0, TAKEN):
        yield f"the starts acknowledged and ended with {ended}"
    elif ended[served[0]][0] != REQUESTS:
        yield f"only {ended[served[0]][0]} requests were served"
    if len(held) != len(entries) or any(kept(number) not in record for number, record in zip(entries, held)):
        yield f"the shard's journal holds {len(held)} entries, and not just those in order"
    if len(records(folder / JOURNALS[0])) != 1:
        yield "the catalogue's journal does not hold the one collection"


def one_file(folder, link, first, second):
    """A start over two journals that are one file. Gives what is wrong."""
    (folder / first).touch()
    link(first, folder / second)
    ran = subprocess.run([PROGRAM, "pipe"], cwd=folder, input=insert(0), capture_output=True, timeout=PATIENCE)
    if (ran.returncode, ran.stderr, ran.stdout) != (*TAKEN, b""):
        return f"status {ran.returncode}, {ran.stderr} and {len(ran.stdout)} bytes of reply"
    return "" if (folder / first).stat().st_size == 0 else "bytes in the file"


def hard_link(first, path):
    os.link(path.parent / first, path)


def try_links():
    """Each way in which two journals are one file. Gives how many there are and what is wrong."""
    wrong, count = [], 0
    for link in (hard_link, lambda first, path: os.symlink(first, path)):
        for first, second in itertools.permutations(JOURNALS, 2):
            with tempfile.TemporaryDirectory() as folder:
                told = one_file(pathlib.Path(folder), link, first, second)
            count += 1
            if told:
                wrong.append(f"{second} is {first}: {told}")
    return count, wrong


def main():
    tries = int(sys.argv[1]) if len(sys.argv) > 1 else 60
    wins, entries, wrong = [0, 0], 0, []
    for number in range(tries):
        with tempfile.TemporaryDirectory() as top:
            served, acknowledged, told = one_try(pathlib.Path(top))
        entries += acknowledged
        for it in served:
            wins[it] += 1
        if told:
            wrong.append(f"try {number}: {told}")
    links, told = try_links()
    wrong += told
    for it in wrong:
        print(f"two_starts: {it}")
    print(f"two_starts: {tries} tries, {entries} acknowledged entries; the first start served in {wins[0]} and the second in {wins[1]}; "
          f"{links} starts over journals that are one file; {len(wrong)} wrong")
    sys.exit(1 if wrong else 0)


main()
