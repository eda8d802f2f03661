"""Rows of scripts with several routers, moments, and messages that are held back by their kind.

Each reply is told beside its request, by hand; the records of the journals are told by hand too, and written by the account of the formats.
As a program, with the path of the built program, it plays the rows of one router, and with `all` the others too.
"""
import pathlib
import subprocess
import sys
import tempfile

from bson import fields_of, stamp
from changing import applied
from commands import command_of
from form import Ask
from reads import find, first, inserted
from records import ROUTER, catalogue_ceiling_record, ceiling_record, create_record, entry_record, file_of, life_record, table_record
from retries import done, errors, insert
from scripts import spelled
from wire import Request, pieces, reply_bytes

ONE = "{_id: 1}"


class Play:
    """A script for so many routers and shards: its lines, its requests in order, and what is printed."""

    def __init__(self, name, routers=1, shards=1):
        self.name, self.routers, self.shards, self.lines, self.printed, self.notes, self.replies = name, routers, shards, [], [], [], [0] * routers

    def client(self, router, ask, identifier=1):
        bytes_ = ask.bytes(identifier)
        self.notes.append(f"note router {router}: {ask.source}")
        self.add(f"client {router} {bytes_.hex()}", "client")
        self.replies[router] += 1
        return router, ask, bytes_, self.replies[router]

    def add(self, *lines):
        line = lines[-1]
        self.lines.append(lines[0])
        self.notes.append(f"note {line}")

    def play(self, *lines):
        for line in lines:
            self.add(line)

    def gets(self, asked):
        router, ask, bytes_, number = asked
        self.printed.append(f"reply {router} {reply_bytes(Request(bytes_), number, fields_of(ask.says)).hex()}")
        self.notes.append(f"note gets {ask.says}")

    def settled(self, asked):
        self.play("settle")
        self.gets(asked)

    def closed(self, router):
        self.printed.append(f"closed {router}")
        self.replies[router] = 0

    def rows(self, keeps, status=0):
        """The lines of the row; `keeps`: the records of each node, from node 0 on."""
        head = f"sim --shards {self.shards}" + (f" --routers {self.routers}" if self.routers > 1 else "")
        lines = [f"# {self.name}", head] + self.notes + [f"ask {spelled(self.lines)}"]
        lines += [f"gets {spelled(self.printed)}"] if self.printed else []
        return lines + [f"keeps {node} {pieces(file_of(records))}" for node, records in enumerate(keeps)] + [f"ends {status} 0"]


def entry(at, source, count, router=0, index=0, before=None, number=None, namespace="d.c", life=1, shards=1):
    """The record of a statement of an insert, under the router's own number or the client's."""
    command = command_of(fields_of(source), [])
    statement = command["statements"][index]
    _, reply = applied("insert", statement, before)
    session, transaction = number or ((ROUTER + shards - 1 + router, life, count), 0)
    return entry_record(at, namespace, (session, transaction, index), "insert", statement, reply)


def lives(routers, last=1):
    return [[life_record(number) for number in range(1, last + 1)] for _ in range(routers)]


def at(counter, seconds=0):
    return stamp(seconds, counter)


def two_routers():
    play = Play("two routers insert one key: one is n 1, the other is refused, and both are entries", 2)
    first_ask = play.client(0, Ask(inserted(ONE), done(1, 2, seconds=0)))
    second_ask = play.client(1, Ask(inserted(ONE), done(0, 3, errors((0, 11000)), 0)))
    play.play("settle")
    play.gets(first_ask)
    play.gets(second_ask)
    document = fields_of(ONE)
    entries = [table_record("d.c", at(1)), entry(at(2), inserted(ONE), 1), entry(at(3), inserted(ONE), 1, router=1, before=document)]
    return play.rows([[create_record("d.c", at(1))], entries] + lives(2))


def own_times():
    play = Play("a router that heard nothing reads at time 0; a moment brings it to the write of the other; its link is closed and opened anew", 2)
    asked = play.client(0, Ask(inserted(ONE), done(1, 2, seconds=0)))
    play.play("settle")
    play.gets(asked)
    early = play.client(1, find("", first("", 0, seconds=0)))
    play.play("settle")
    play.gets(early)
    play.play("moment 3 5000")
    late = play.client(1, find("", first(ONE, 0, seconds=5)), 2)
    play.play("settle")
    play.gets(late)
    under_way = play.client(0, Ask(inserted("{_id: 2}"), done(1, 1, seconds=5)), 2)
    play.play(f"client 1 {'00' * 16}")
    play.closed(1)
    play.play("settle")
    play.gets(under_way)
    anew = play.client(1, find("sort: {_id: -1}", first("{_id: 1}", 0, seconds=5)), 3)
    play.play("settle")
    play.gets(anew)
    stored = [table_record("d.c", at(1)), entry(at(2), inserted(ONE), 1), ceiling_record(at(0, 5)), entry(at(1, 5), inserted("{_id: 2}"), 2)]
    return play.rows([[create_record("d.c", at(1))], stored] + lives(2))


def moment_asks_again():
    play = Play("a moment before the first answer: the router asks for the table twice, and one collection is created")
    asked = play.client(0, Ask(inserted(ONE), done(1, 1, seconds=1)))
    play.play("moment 2 1000", "settle")
    play.gets(asked)
    entries = [table_record("d.c", at(1)), entry(at(1, 1), inserted(ONE), 1)]
    return play.rows([[create_record("d.c", at(1))], entries] + lives(1))


def held_answer(times):
    words = "once" if times == 1 else "twice, the second time with none left"
    play = Play(f"the answer of a write is held back, and the next of its kind is delivered {words}")
    asked = play.client(0, Ask(inserted(ONE), done(1, 2, seconds=0)))
    play.play("settle except WriteDone", "next WriteDone")
    play.gets(asked)
    play.play(*["next WriteDone"] * (times - 1))
    entries = [table_record("d.c", at(1)), entry(at(2), inserted(ONE), 1)]
    return play.rows([[create_record("d.c", at(1))], entries] + lives(1), 0 if times == 1 else 9)


def held_and_settled():
    play = Play("a kind that no node sends holds nothing back; what was held back comes with the next settle, in its place")
    asked = play.client(0, Ask(inserted(ONE), done(1, 2, seconds=0)))
    other = play.client(0, Ask(inserted("{_id: 2}"), done(1, 3, seconds=0)), 2)
    play.play("settle except WriteDone", "settle except Batch")
    play.gets(asked)
    play.gets(other)
    entries = [table_record("d.c", at(1)), entry(at(2), inserted(ONE), 1), entry(at(3), inserted("{_id: 2}"), 2)]
    return play.rows([[create_record("d.c", at(1))], entries] + lives(1))


def numbered_by_both():
    play = Play("a numbered insert by one router, and the same by the other: one entry, one outcome, each reply with its own number on its link", 2)
    source = ("{_id: 1}", "1L")
    one = play.client(1, insert(*source, done(1, 2, seconds=0)))
    play.play("settle")
    play.gets(one)
    two = play.client(0, insert(*source, done(1, 2, seconds=0)), 7)
    play.play("settle")
    play.gets(two)
    session = bytes(range(16))
    entries = [table_record("d.c", at(1)), entry(at(2), one[1].source, 1, number=(session, 1))]
    return play.rows([[create_record("d.c", at(1))], entries] + lives(2))


def refused(words, line, routers=1, before=()):
    play = Play(f"refused: {words}", routers)
    play.play(*before, line)
    return play.rows([[], []] + lives(routers), 9)


def refusals(routers):
    listed = [
        ("a kind in another case", "settle except writeDone", 1), ("a kind that is none", "next WriteDones", 1), ("two spaces", "settle  except WriteDone", 1),
        ("no kind", "settle except", 1), ("no message of that kind", "next WriteDone", 1), ("a router that does not exist", "client 1 00", 1),
        ("a router that does not exist, of two", "client 2 00", 2), ("a node that does not exist", "moment 3 5", 1),
        ("a node that does not exist, of two routers", "moment 4 5", 2), ("a number with zeros before it", "moment 2 007", 1),
        ("a number past 64 bits", "moment 2 18446744073709551616", 1), ("an odd number of digits", "client 0 000", 1), ("no bytes", "client 0 ", 1),
        ("a word after the kind", "next WriteDone 1", 1),
    ]
    lines = [line for words, line, count in listed if count == routers for line in refused(words, line, count)]
    if routers == 1:
        return lines + refused("a line that is none, after others", "moments 2 5", 1, ("moment 2 1", "settle except Batch", "settle"))
    return lines


def greatest_moment():
    play = Play("the greatest moment, given to each node: times stand at the greatest second")
    play.play(*[f"moment {node} {2**64 - 1}" for node in range(3)])
    asked = play.client(0, find("", first("", 0, seconds=2**31)))
    play.play("settle")
    play.gets(asked)
    return play.rows([[catalogue_ceiling_record(at(0, 2**31))], []] + lives(1))


def one_router():
    """The rows of scripts with one router."""
    return moment_asks_again() + held_answer(1) + held_answer(2) + held_and_settled() + refusals(1) + greatest_moment()


def rows():
    """The rows of scripts with several."""
    return two_routers() + own_times() + numbered_by_both() + refusals(2)


def bytes_of(words):
    """The bytes of pieces in hexadecimal, of which one may have a count before it."""
    found = b""
    for word in words.split():
        count, _, digits = word.rpartition("*")
        found += bytes.fromhex(digits) * int(count or 1)
    return found


def plays(program, lines):
    """Whether the program, run on a row of these lines, prints, keeps and ends as the row says."""
    arguments, script, printed, kept, status = ["sim"], b"", b"", {}, 0
    for line in lines:
        word, _, rest = line.partition(" ")
        if word == "sim":
            arguments = line.split()
        elif word == "ask":
            script = bytes_of(rest)
        elif word == "gets":
            printed = bytes_of(rest)
        elif word == "keeps":
            kept[int(rest.split()[0])] = bytes_of(rest.partition(" ")[2])
        elif word == "ends":
            status = int(rest.split()[0])
    with tempfile.TemporaryDirectory() as folder:
        run = subprocess.run([program, *arguments], cwd=folder, input=script, stdout=subprocess.PIPE, stderr=subprocess.DEVNULL)
        paths = {node: pathlib.Path(folder) / f"node{node:02}.journal" for node in kept}
        files = {node: path.read_bytes() if path.exists() else None for node, path in paths.items()}
    return (run.returncode, run.stdout, files) == (status, printed, kept)


def main():
    """Runs the rows by the program: those of one router, and with `all` the others too."""
    program = str(pathlib.Path(sys.argv[1]).resolve())
    lines, wrong, count = [], 0, 0
    for line in one_router() + (rows() if "all" in sys.argv else []):
        lines.append(line)
        if line.startswith("ends "):
            count += 1
            if not plays(program, lines):
                wrong += 1
                print(lines[0])
            lines = []
    print(f"routers: {count} rows, {wrong} wrong")
    sys.exit(1 if wrong else 0)


if __name__ == "__main__":
    main()
