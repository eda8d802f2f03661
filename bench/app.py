#!/usr/bin/env -S python3 -B
"""Runs what examples/README.md shows against the built program, and compares it with what that page says.

Through examples/tcp.py: app.py, with all of its output; app.py once more while each numbered write's first reply is lost with its
connection, so that the driver retries; eight clients that increment one document; requests without a reply; and connections that send what
is no message or end in the middle of one, which must cost no other connection anything. Then shell.py, the script, and the connections of the hex files.

    bench/app.py [PROGRAM]     without an argument the program that `cluster` builds

It needs pymongo, for the python3 on the path or for /usr/bin/python3. It exits with 1 where anything differs.
"""
import contextlib
import os
import pathlib
import re
import struct
import subprocess
import sys
import tempfile
import threading

TOP = pathlib.Path(__file__).resolve().parent.parent
sys.path.insert(0, str(TOP / "bench" / "rows"))

from bson import DOCUMENT, fields_of, read_fields, shown  # noqa: E402
from inserts import built  # noqa: E402
from losing import Losing, connect, next_message  # noqa: E402
from wire import message, split_messages  # noqa: E402

PROGRAM = os.path.abspath(sys.argv[1]) if len(sys.argv) > 1 else built()
EXAMPLES = TOP / "examples"
PAGE = (EXAMPLES / "README.md").read_text()
CLIENTS, EACH = 8, 50

wrong = []


def compare(name, got, wanted):
    if got == wanted:
        print(f"ok: {name}")
    else:
        print(f"wrong: {name}\n--- wanted\n{wanted}\n--- got\n{got}")
        wrong.append(name)


def block(first):
    """The indented block of the page whose first line begins so."""
    lines = PAGE[PAGE.index(f"\n    {first}") + 1 :].splitlines()
    end = next(at for at, line in enumerate(lines) if not line.startswith("    "))
    return [line[4:] for line in lines[:end]]


def python_with_pymongo():
    for path in ("python3", "/usr/bin/python3"):
        if subprocess.run([path, "-c", "import pymongo"], stderr=subprocess.DEVNULL).returncode == 0:
            return path
    sys.exit("app: pymongo is not installed (Debian: python3-pymongo)")


@contextlib.contextmanager
def server():
    """A server in a folder of its own, with its port, which must still answer at the end."""
    with tempfile.TemporaryDirectory() as folder:
        words = [sys.executable, EXAMPLES / "tcp.py", "0", PROGRAM]
        with subprocess.Popen(words, cwd=folder, stderr=subprocess.PIPE, text=True) as running:
            try:
                said = running.stderr.readline()
                if not said.startswith("tcp: mongodb://127.0.0.1:"):
                    sys.exit(f"app: tcp.py does not serve: {said}{running.stderr.read()}")
                yield int(said.rpartition(":")[2])
                compare("tcp.py serves to the end", running.poll(), None)
            finally:
                running.kill()


def document_of(reply):
    return shown((DOCUMENT, read_fields(reply, 21)[0])) if reply else "none"


def answers(port, requests):
    """The replies to these messages on one connection, without their times, as text."""
    connection, stream = connect(port)
    with connection, stream:
        replies = []
        for request in requests:
            connection.sendall(request)
            replies.append(document_of(next_message(stream)))
    return [re.sub(r"Timestamp\(\d+, \d+\)", "<time>", it) for it in replies]


def run_app(port):
    ran = subprocess.run([python_with_pymongo(), EXAMPLES / "app.py", f"mongodb://127.0.0.1:{port}"], capture_output=True, text=True, timeout=120)
    return ran.stdout.splitlines() + ran.stderr.splitlines()


def try_app():
    wanted = block("inserted:")
    with server() as port:
        compare("app.py", run_app(port), wanted)
    with server() as port:
        losing = Losing(port)
        compare("app.py with lost replies", run_app(losing.port), wanted)
        compare("app.py retries 12 writes", losing.lost, 12)


def try_clients():
    """Clients side by side: each increment is applied once."""
    add = [message(number, '{update: "c", updates: [{q: {_id: 1}, u: {$inc: {n: 1}}, upsert: true}], $db: "d"}') for number in range(EACH)]
    with server() as port:
        threads = [threading.Thread(target=answers, args=(port, add)) for _ in range(CLIENTS)]
        for it in threads:
            it.start()
        for it in threads:
            it.join()
        found = answers(port, [message(1, '{find: "c", projection: {_id: 0}, $db: "d"}')])
    compare("clients side by side", f"firstBatch: [{{n: {CLIENTS * EACH}}}]" in found[0], True)


def bad_messages():
    """Bytes that are no message, by name."""
    good = message(1, '{ping: 1, $db: "d"}')

    def changed(at, byte):
        return good[:at] + bytes([byte]) + good[at + 1 :]

    sections = message(1, '{insert: "c", $db: "d"}', [("documents", ["{_id: 1}"])])
    return {
        "a length of 15": struct.pack("<i", 15) + good[4:],
        "a negative length": struct.pack("<i", -1) + good[4:],
        "a length of 48,000,001": struct.pack("<i", 48000001) + good[4:],
        "another opcode": changed(12, 0xDC),
        "a checksum's flag": changed(16, 1),
        "flag bit 8": changed(17, 1),
        "no section": struct.pack("<iiiii", 20, 1, 0, 2013, 0),
        "no flags": struct.pack("<iiii", 16, 1, 0, 2013),
        "a section of kind 2": changed(20, 2),
        "a document past its message": changed(21, 0xFF),
        "two bodies": struct.pack("<i", 2 * len(good) - 20) + good[4:] + good[20:],
        "a sequence without its end": struct.pack("<i", len(sections) - 1) + sections[4:-1],
        "a query of another kind": changed(12, 0xD4),
        "text": b"GET / HTTP/1.1\r\nHost: localhost\r\n\r\n",
    }


def try_bad_connections():
    ping = message(7, '{ping: 1, $db: "d"}')
    silent = message(8, '{insert: "c", documents: [{_id: 1}], $db: "d"}', is_silent=True)
    with server() as port:
        steady, stream = connect(port)
        half, _ = connect(port)
        half.sendall(silent[:-1])
        for name, bytes_ in bad_messages().items():
            compare(name, answers(port, [bytes_]), ["none"])
        half.close()
        steady.sendall(silent + ping)
        compare("no reply to moreToCome", (lambda it: (it[8:12], document_of(it)))(next_message(stream)), (struct.pack("<i", 7), "{ok: 1}"))
        steady.close()
        found = answers(port, [message(9, '{count: "c", $db: "d"}')])
        compare("what was inserted without a reply", found, ["{n: 1, atClusterTime: <time>, ok: 1, operationTime: <time>}"])


def try_shell():
    lines = block('{"insert"')
    with tempfile.TemporaryDirectory() as folder:
        text = "\n".join(lines[::2]) + "\n"
        ran = subprocess.run([sys.executable, EXAMPLES / "shell.py", PROGRAM], cwd=folder, input=text, capture_output=True, text=True, timeout=60)
    told = re.sub(r'\{"\$timestamp": \{"t": \d+, "i": \d+\}\}', "T", ran.stdout).splitlines()
    compare("shell.py", told, [it.removeprefix("-> ") for it in lines[1::2]])


def try_hex(name):
    """The connection of a hex file: its requests and the program's replies are those of the page, and so are the replies' lengths."""
    begin = PAGE.index(f"../examples/{name}.hex | ../cluster pipe | xxd\n")
    end = PAGE.index("bytes.", begin)
    entries = re.split(r"^ {4}(?=\d+\. |-> )", PAGE[PAGE.index("    1. ", begin) : PAGE.index("\n\nThe replies", begin)], flags=re.M)[1:]
    entries = [re.sub(r"\s+", " ", re.sub(r"^(\d+\.|->) ", "", it)).strip().replace("<time>", "Timestamp(0, 0)") for it in entries]
    sent = bytes.fromhex((EXAMPLES / f"{name}.hex").read_text())
    with tempfile.TemporaryDirectory() as folder:
        ran = subprocess.run([PROGRAM, "pipe"], cwd=folder, input=sent, capture_output=True, timeout=60)
    replies = split_messages(ran.stdout)
    told = [re.sub(r"Timestamp\(\d+, \d+\)", "Timestamp(0, 0)", document_of(it)) for it in replies]
    compare(f"{name}.hex: requests", [document_of(it) for it in split_messages(sent)], [shown((DOCUMENT, fields_of(it))) for it in entries[::2]])
    compare(f"{name}.hex: replies", told, [shown((DOCUMENT, fields_of(it))) for it in entries[1::2]])
    lengths = re.findall(r"\d+", PAGE[PAGE.index("The replies have", begin) : end])
    compare(f"{name}.hex: lengths", [str(len(it)) for it in replies], lengths)


def try_script():
    script = (EXAMPLES / "twice.script").read_bytes()
    with tempfile.TemporaryDirectory() as folder:
        ran = subprocess.run([PROGRAM, "sim", "--shards", "1"], cwd=folder, input=script, capture_output=True, timeout=60)
    compare("twice.script", ran.stdout.decode().splitlines(), block("reply 0"))


def try_insert():
    """The insert of the page twice: the first reply but its time, and the lengths of both."""
    sent = bytes.fromhex((EXAMPLES / "insert.hex").read_text())
    with tempfile.TemporaryDirectory() as folder:
        ran = subprocess.run([PROGRAM, "pipe"], cwd=folder, input=2 * sent, capture_output=True, timeout=60)
    replies = split_messages(ran.stdout)
    lines = "".join(block("4000000001")).replace(" ", "").partition("<seconds>")
    compare("insert.hex", (replies[0][:59].hex(), replies[0][63:].hex()), lines[::2])
    compare("insert.hex: lengths", [len(it) for it in replies], [64, 136])


def main():
    try_app()
    try_clients()
    try_bad_connections()
    try_shell()
    try_insert()
    try_script()
    for name in ("query", "aggregate", "retry"):
        try_hex(name)
    print(f"app: {len(wrong)} wrong")
    sys.exit(1 if wrong else 0)


main()
