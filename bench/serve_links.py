#!/usr/bin/env -S python3 -B
"""Tries `cluster serve` with many connections, and with clients that behave badly, over plain sockets.

1,000 connections one after another and 64 at once; half a message, no message, bytes that are no message, and a client that reads no reply: its own link ends
as it must, and no other is touched; a disk that fails; a port that is in use; words that are refused; which stack a thread needs for the deepest documents; and
how many inserts and reads 64 connections get beside one. Prints what differs and exits with 1 where anything does; ratios are told and not judged.

    bench/serve_links.py [PROGRAM] [links | faults | disk | words | stack | speed]..     without a part all of them
"""
import contextlib
import pathlib
import resource
import signal
import socket
import struct
import subprocess
import sys
import tempfile
import threading
import time

from served import Checks, Link, Server, allow_files, entries, free_port, keys_kept, message, program_of, server

PROGRAM, PARTS = program_of(sys.argv[1:])
checks = Checks("serve_links")
PONG = "{ok: 1}"
WROTE = "{n: 1, ok: 1, operationTime: <time>}"


def insert(key):
    return f'{{insert: "c", documents: [{{_id: {key}}}], $db: "d"}}'


def ping(link):
    return link.ask('{ping: 1, $db: "d"}')


def one_after_another(many=1000):
    """Connections one after another, each with an insert; and what the server keeps of one that has ended."""
    allow_files(100_000)
    with server(PROGRAM) as running:
        replies, held = [], []
        for number in range(many):
            with Link(running.port) as link:
                replies.append(link.ask(insert(number)))
            if number in (99, many - 1):
                time.sleep(0.5)
                held.append([running.number_of(what) for what in ("files", "threads", "memory")])
        checks.compare(f"{many} connections one after another", [it for it in replies if it != WROTE], [])
        grown = [after - before for before, after in zip(*held)]
        print(f"told: {many - 100} connections that ended left {grown[0]} open files, {grown[1]} threads, {grown[2]} kB")
        checks.compare("a connection that ended holds no file", grown[0] < many // 2, True)
        running.process.terminate()


def few_files(many=300):
    """The same where the server may open few files."""
    with tempfile.TemporaryDirectory() as folder:
        script = f'ulimit -n 128; exec "{PROGRAM}" "$@"'
        port = free_port()
        words = ["sh", "-c", script, "sh", "serve", "--port", str(port), "--sessions", str(many)]
        with subprocess.Popen(words, cwd=folder, stderr=subprocess.PIPE, text=True) as running:
            running.stderr.readline()
            got = []
            for _ in range(many):
                with contextlib.suppress(OSError), Link(port, 5) as link:
                    got.append(ping(link))
            with contextlib.suppress(subprocess.TimeoutExpired):
                running.wait(5)
            ended = running.poll()
            running.kill()
    checks.compare(f"{many} connections, of 128 files", (got.count(PONG), ended), (many, 0))


def all_at_once(many=64, each=20):
    """Connections at once, each with inserts of its own keys: all are applied, and each reply is its own."""
    got = {}

    def use(number):
        with Link(running.port) as link:
            got[number] = [link.ask(insert(number * each + at)) for at in range(each)] + [ping(link)]

    with server(PROGRAM, sessions=many + 1, routers=4) as running:
        threads = [threading.Thread(target=use, args=(it,)) for it in range(many)]
        for it in threads:
            it.start()
        for it in threads:
            it.join()
        checks.compare(f"{many} connections at once", [it for it in got.values() if it != [WROTE] * each + [PONG]], [])
        time.sleep(1.5)  # a read that names no time may miss what other routers wrote in the same second
        with Link(running.port) as link:
            checks.compare("what they inserted", link.ask('{count: "c", $db: "d"}').startswith(f"{{n: {many * each},"), True)
        checks.compare("the end of all connections", running.end(), (0, ""))
        checks.compare("the journal", len(entries(running.folder / "node01.journal")), many * each)


def one_key():
    """Two links insert one key at one moment: one is applied."""
    with server(PROGRAM, routers=2) as running:
        refused = '{n: 0, writeErrors: [{index: 0, code: 11000, errmsg: "DuplicateKey"}], ok: 1, operationTime: <time>}'
        with Link(running.port) as one, Link(running.port) as two:
            wrong = []
            for key in range(100):
                one.send(insert(key))
                two.send(insert(key))
                if sorted([one.reply(), two.reply()]) != sorted([WROTE, refused]):
                    wrong.append(key)
        checks.compare("one key on two links", wrong, [])


def try_links():
    one_after_another()
    few_files()
    all_at_once()
    one_key()


def bad_messages():
    good = message(1, '{ping: 1, $db: "d"}')
    return {
        "a length of 15": struct.pack("<i", 15) + good[4:],
        "a negative length": struct.pack("<i", -1) + good[4:],
        "a length of 48,000,001": struct.pack("<i", 48000001) + good[4:],
        "another opcode": good[:12] + b"\xdc" + good[13:],
        "a checksum's flag": good[:16] + b"\1" + good[17:],
        "a section of kind 2": good[:20] + b"\2" + good[21:],
        "text": b"GET / HTTP/1.1\r\nHost: localhost\r\n\r\n",
        "a handshake of TLS": bytes.fromhex("16030100c8010000c40303") + bytes(200),
    }


def try_malformed(running, steady):
    for name, bytes_ in bad_messages().items():
        with Link(running.port, 5) as link:
            link.socket.sendall(message(1, '{ping: 1, $db: "d"}') + bytes_)
            got = [link.reply(), link.reply()]
            checks.compare(f"{name}: its link ends after the reply before it", got, [PONG, "end"])
        checks.compare(f"{name}: another link", ping(steady), PONG)


def try_half(running, steady):
    whole = message(1, insert(1))
    for cut in (1, 15, 16, len(whole) - 1):
        with Link(running.port) as link:
            link.socket.sendall(whole[:cut])
    with Link(running.port) as link:
        link.socket.sendall(whole[: len(whole) - 1])
        link.socket.setsockopt(socket.SOL_SOCKET, socket.SO_LINGER, struct.pack("ii", 1, 0))
    checks.compare("after half a message another link", ping(steady), PONG)
    count = steady.ask('{count: "c", $db: "d"}')
    checks.compare("half a message is not applied", count.startswith("{n: 0,"), True)


def try_unread(running, steady):
    """A client that sends requests whose replies it does not read: the server waits for it alone."""
    big = steady.ask(f'{{insert: "big", documents: [{{_id: 1, text: "{"x" * 1_000_000}"}}], $db: "d"}}')
    checks.compare("a document of 1 MB", big, WROTE)
    with Link(running.port) as link:
        link.socket.settimeout(1)
        with contextlib.suppress(TimeoutError):
            for _ in range(200):
                link.send('{find: "big", $db: "d"}')
        began = time.monotonic()
        got = [steady.ask(insert(100 + it)) for it in range(50)]
        checks.compare("beside a client that reads no reply", got, [WROTE] * 50)
        print(f"told: 50 inserts beside a client that reads no reply took {time.monotonic() - began:.2f} s")
    checks.compare("after it has gone", ping(steady), PONG)


def try_silent(running, steady):
    """Unacknowledged inserts in a row, and then a ping on the same link."""
    with Link(running.port) as link:
        for number in range(2000):
            link.send(f'{{insert: "quiet", documents: [{{_id: {number}}}], $db: "d"}}', is_silent=True)
        checks.compare("a ping behind 2,000 unacknowledged inserts", ping(link), PONG)
    time.sleep(1)
    count = steady.ask('{count: "quiet", $db: "d"}')
    checks.compare("what they inserted", count.startswith("{n: 2000,"), True)


def try_faults():
    with server(PROGRAM, routers=2) as running, Link(running.port) as steady:
        with Link(running.port):
            checks.compare("beside a client that sends nothing", ping(steady), PONG)
        try_malformed(running, steady)
        try_half(running, steady)
        try_unread(running, steady)
        try_silent(running, steady)


def small_files():
    """Lets a file have 20,000 bytes: a longer write fails."""
    signal.signal(signal.SIGXFSZ, signal.SIG_IGN)
    resource.setrlimit(resource.RLIMIT_FSIZE, (20_000, 20_000))


def try_disk():
    """A disk that fails: what was acknowledged is in the journal, the links end, and the server with 5, though no client says more."""
    with server(PROGRAM, preexec_fn=small_files) as running:
        with Link(running.port, 10) as one, Link(running.port, 10) as idle:
            ping(idle)
            got = []
            while not got or got[-1] == WROTE:
                got.append(one.ask(insert(f'"k0-{len(got)}"')))
            checks.compare("the link of the insert that failed", got[-1], "end")
            checks.compare("a link beside it, at its next request", ping(idle), "end")
            status, line = running.end(10)
        checks.compare("the end of the server", (status, line), (5, "cluster: disk failed"))
        acknowledged = {f"k0-{at}" for at in range(len(got) - 1)}
        checks.compare("the journal", acknowledged - set(keys_kept(running.folder, rb"k\d+-\d+")), set())


def nested(levels):
    """A document that is so deep."""
    return "{_id: 1, a: " + "{a: " * (levels - 1) + "1" + "}" * levels


def is_deep_served(kilobytes):
    """Whether the deepest documents are served where a thread's stack has so many kilobytes."""
    def stack():
        resource.setrlimit(resource.RLIMIT_STACK, (kilobytes * 1024, kilobytes * 1024))

    asks = [
        f'{{insert: "c", documents: [{nested(97)}], $db: "d"}}',
        '{find: "c", $db: "d"}',
        f'{{find: "c", filter: {{b: {nested(95)}}}, sort: {{"a.a": 1}}, $db: "d"}}',
        f'{{update: "c", updates: [{{q: {{_id: 1}}, u: {{$set: {{b: {nested(95)}}}}}}}], $db: "d"}}',
        '{aggregate: "c", pipeline: [{$group: {_id: "$a", n: {$max: "$b"}}}], cursor: {}, $db: "d"}',
    ]
    with tempfile.TemporaryDirectory() as folder:
        running = Server(PROGRAM, folder, preexec_fn=stack)
        try:
            with Link(running.port, 20) as link:
                return running.listens() and all("ok: 1" in link.ask(it) for it in asks)
        except OSError:
            return False
        finally:
            running.kill()


def try_stack():
    with server(PROGRAM) as running, Link(running.port) as link:
        refused = link.ask(f'{{insert: "c", documents: [{nested(200)}], $db: "d"}}')
        checks.compare("a document that is too deep", "code: 22" in refused, True)
    found = {kilobytes: is_deep_served(kilobytes) for kilobytes in (8192, 1024, 512, 256, 192, 128, 96, 64, 32, 16)}
    print(f"told: the least stack that serves the deepest documents: {min(it for it, served in found.items() if served)} kB of {found}")


def files_in(folder):
    return {it.name: it.read_bytes() for it in pathlib.Path(folder).iterdir()}


def try_port_in_use():
    with tempfile.TemporaryDirectory() as folder, socket.create_server(("127.0.0.1", 0)) as taken:
        refused = Server(PROGRAM, folder, port=taken.getsockname()[1])
        checks.compare("a port in use", (refused.said.strip(), refused.end()), ("cluster: accept failed", (8, "")))
        left = files_in(folder)
        checks.compare("the journals beside a port in use", sorted(left), [f"node{node:02}.journal" for node in range(4)])
        print(f"told: their lengths {sorted(len(it) for it in left.values())}")
        again = Server(PROGRAM, folder, sessions=1)
        checks.compare("a start with another port in the same folder", again.listens(), True)
        again.kill()
    with tempfile.TemporaryDirectory() as folder:
        held = pathlib.Path(folder) / "node01.journal"
        held.write_bytes(b"\1\0")
        refused = Server(PROGRAM, folder)
        checks.compare("a damaged journal", (refused.end()[0], held.read_bytes()), (6, b"\1\0"))


def try_words():
    try_port_in_use()
    refused = [
        "--port 0 --sessions 1", "--port 65536 --sessions 1", "--port 27018 --sessions 0", "--port 27018", "--sessions 1",
        "--port 27018 --sessions 4294967296", "--port 27018 --port 27018 --sessions 1", "--port 27018 --sessions 1 --routers 0",
        "--port 27018 --sessions 1 --routers 9", "--port 27018 --sessions 1 more",
    ]
    for words in refused:
        with tempfile.TemporaryDirectory() as folder:
            ran = subprocess.run([PROGRAM, "serve", *words.split()], cwd=folder, capture_output=True, text=True, timeout=20)
            checks.compare(f"serve {words}", (ran.returncode, ran.stderr, files_in(folder)), (2, "cluster: bad words\n", {}))
    with server(PROGRAM, sessions=1, port=free_port()) as running:
        with Link(running.port) as link:
            ping(link)
        checks.compare("the end after one connection", running.end(), (0, ""))


def rate(running, links, request, seconds=3):
    """How many requests a second so many links get answered together, and the longest wait for a reply."""
    counts, longest, until = [0] * links, [0.0] * links, time.monotonic() + seconds

    def use(number):
        with Link(running.port) as link:
            while (began := time.monotonic()) < until:
                link.ask(request(number, counts[number]))
                counts[number] += 1
                longest[number] = max(longest[number], time.monotonic() - began)

    threads = [threading.Thread(target=use, args=(it,)) for it in range(links)]
    for it in threads:
        it.start()
    for it in threads:
        it.join()
    return sum(counts) / seconds, max(longest)


def try_speed():
    with server(PROGRAM) as running, Link(running.port) as link:
        link.ask(insert('"first"'))
        find = '{find: "c", filter: {_id: "first"}, $db: "d"}'
        told = {
            "inserts": {links: rate(running, links, lambda number, at: insert(f'"{links} {number} {at}"')) for links in (1, 8, 64)},
            "reads": {links: rate(running, links, lambda number, at: find) for links in (1, 8, 64)},
        }
    for name, rates in told.items():
        ratios = ", ".join(f"{rates[links][0] / rates[1][0]:.2f}" for links in (8, 64))
        longest = ", ".join(f"{rates[links][1]:.2f}" for links in (1, 8, 64))
        print(f"told: {name} a second of 8 and 64 links to those of one: {ratios} ({rates[1][0]:.0f} of one)")
        print(f"told: the longest wait for a reply with 1, 8, 64 links: {longest} s")


def main():
    parts = {"links": try_links, "faults": try_faults, "disk": try_disk, "words": try_words, "stack": try_stack, "speed": try_speed}
    for name in PARTS or parts:
        parts[name]()
    checks.end()


main()
