#!/usr/bin/env -S python3 -B
"""Runs ordinary applications of MongoDB's drivers against `cluster serve`, with retryWrites on.

`apps`: the shops of bench/apps, by the drivers for Python, Ruby, PHP, Node and Go as Debian packs them (python3-pymongo, ruby-mongo, php-mongodb, node-mongodb,
golang-mongodb-mongo-driver-dev), all of which must print the same; a driver that is not installed is left out. `example`: examples/app.py, also where the
reply to each numbered write is lost with its connection. `pages`: eight threads of pymongo that read in batches. `threads`: eight threads of pymongo with
10,000 inserts each. `kills`: the server is killed under such a load, some number of times: each acknowledged insert is in the journal, and none twice.

    bench/serve_drivers.py [PROGRAM] [apps | example | pages | threads | kills [ROUNDS]]..     without a part all of them, with 20 kills

`SERVE_EACH=1000` lets each thread insert so many.
"""
import contextlib
import os
import pathlib
import random
import re
import subprocess
import sys
import tempfile
import threading
import time

from losing import Losing
from served import TOP, Checks, Server, keys_kept, program_of, server

PROGRAM, WORDS = program_of(sys.argv[1:])
APPS = TOP / "bench" / "apps"
PYTHON = "/usr/bin/python3"
THREADS, EACH = 8, int(os.environ.get("SERVE_EACH", "10000"))
checks = Checks("serve_drivers")

SHOP = """inserted 4
one 4
iron nail saw
few glue saw
cents 300 2500 160 1400 4700 350 40
updated 1 1 400
upserted paint
replaced 1
deleted 1 0
total nail 3 160
total rope 1 2
total saw 1 2
counted 3
duplicate 11000
"""


def go_program(folder):
    """The shop in Go, built, or None where it can't be."""
    path = pathlib.Path(folder) / "shop"
    environment = {"GO111MODULE": "off", "GOPATH": "/usr/share/gocode", "GOCACHE": f"{folder}/cache", "PATH": "/usr/bin:/bin"}
    with contextlib.suppress(OSError):
        subprocess.run(["/usr/bin/go", "build", "-o", path, APPS / "shop.go"], env=environment, capture_output=True)
    return path if path.is_file() else None


ENVIRONMENT = {"NODE_PATH": "/usr/share/nodejs", "PATH": "/usr/bin:/bin"}


def drivers(folder):
    """How each driver's shop is run, of the drivers that are installed."""
    tests = {
        "Python": ([PYTHON, APPS / "shop.py"], [PYTHON, "-c", "import pymongo"]),
        "Ruby": (["/usr/bin/ruby", APPS / "shop.rb"], ["/usr/bin/ruby", "-e", 'require "mongo"']),
        "PHP": (["/usr/bin/php", APPS / "shop.php"], ["/usr/bin/php", "-r", 'exit(extension_loaded("mongodb") ? 0 : 1);']),
        "Node": (["/usr/bin/node", APPS / "shop.js"], ["/usr/bin/node", "-e", 'require("mongodb")']),
    }
    found = {name: words for name, (words, test) in tests.items() if is_installed(test)}
    path = go_program(folder)
    return {**found, "Go": [path]} if path else found


def is_installed(test):
    with contextlib.suppress(OSError):
        return subprocess.run(test, capture_output=True, env=ENVIRONMENT).returncode == 0
    return False


def ran(words, uri, seconds=120):
    """What a program prints, and its errors where it ends with a status other than 0."""
    try:
        done = subprocess.run([*words, uri], capture_output=True, text=True, timeout=seconds, env=ENVIRONMENT)
    except subprocess.TimeoutExpired as late:
        return f"{(late.stdout or b'').decode()}no end in {seconds} s"
    return done.stdout + (done.stderr if done.returncode else "")


def try_apps():
    with tempfile.TemporaryDirectory() as folder:
        found = drivers(folder)
        print(f"told: the drivers for {', '.join(found)} are installed")
        for name, words in found.items():
            with server(PROGRAM) as running:
                checks.compare(f"the shop of the driver for {name}", ran(words, running.uri), SHOP)


def page():
    """What examples/README.md says that app.py prints."""
    text = (TOP / "examples" / "README.md").read_text()
    lines = text[text.index("\n    inserted: [") + 1 :].splitlines()
    end = next(at for at, line in enumerate(lines) if not line.startswith("    "))
    return "".join(line[4:] + "\n" for line in lines[:end])


def try_example():
    app = [PYTHON, TOP / "examples" / "app.py"]
    with server(PROGRAM) as running:
        checks.compare("examples/app.py", ran(app, running.uri.split("?")[0]), page())
    with server(PROGRAM) as running:
        losing = Losing(running.port)
        checks.compare("examples/app.py with lost replies", ran(app, f"mongodb://127.0.0.1:{losing.port}"), page())
        checks.compare("examples/app.py retries 12 writes", losing.lost, 12)


PAGER = """
import sys, threading
from pymongo import MongoClient
from pymongo.errors import PyMongoError
client = MongoClient(sys.argv[1])
client.pages.c.insert_many([{"_id": it} for it in range(500)])
def use(name):
    for at in range(10):
        try:
            read = [it["_id"] for it in client.pages.c.find().sort("_id", 1).batch_size(20)]
            sys.stdout.write("read\\n" if read == list(range(500)) else f"other {len(read)}\\n")
        except PyMongoError as error:
            sys.stdout.write(f"error {getattr(error, 'code', None)}\\n")
all = [threading.Thread(target=use, args=(it,)) for it in range(int(sys.argv[2]))]
for it in all: it.start()
for it in all: it.join()
"""


def paged(routers):
    """What threads that read in batches print, and how often."""
    with server(PROGRAM, routers=routers) as running:
        words = [PYTHON, "-c", PAGER, running.uri, str(THREADS)]
        lines = subprocess.run(words, capture_output=True, text=True, timeout=300).stdout.splitlines()
    return {it: lines.count(it) for it in sorted(set(lines))}


def try_pages():
    """One driver's threads share its connections, so a cursor goes on on any of them: they must have one router."""
    checks.compare(f"{THREADS} threads read in batches by one router", paged(1), {"read": THREADS * 10})
    print(f"told: the same by three routers, whose cursors are their own: {paged(3)}")


LOADER = """
import sys, threading
from pymongo import MongoClient
from pymongo.errors import PyMongoError
client = MongoClient(sys.argv[1] + "&serverSelectionTimeoutMS=2000&socketTimeoutMS=60000")
each, threads = int(sys.argv[2]), int(sys.argv[3])
out = threading.Lock()
def use(name):
    for at in range(each):
        key = f"k{name}-{at}"
        try:
            client.load.c.insert_one({"_id": key, "n": at})
        except PyMongoError as error:
            with out: print("error", key, type(error).__name__, str(error)[:120], flush=True)
            return
        with out: print(key, flush=True)
all = [threading.Thread(target=use, args=(it,)) for it in range(threads)]
for it in all: it.start()
for it in all: it.join()
"""


class Load:
    """A process whose threads insert, each the keys of its own; it prints each that is acknowledged."""

    def __init__(self, uri, each, threads=THREADS):
        words = [PYTHON, "-c", LOADER, uri, str(each), str(threads)]
        self.process = subprocess.Popen(words, stdout=subprocess.PIPE, stderr=subprocess.STDOUT, text=True)
        self.lines, self.reader = [], threading.Thread(target=self.read)
        self.reader.start()

    def read(self):
        for line in self.process.stdout:
            self.lines.append(line.strip())

    def acknowledged(self):
        return [it for it in self.lines if re.fullmatch(r"k\d+-\d+", it)]

    def others(self):
        return [it for it in self.lines if not re.fullmatch(r"k\d+-\d+", it)]

    def wait(self):
        self.process.wait()
        self.reader.join()


def is_kept(folder, acknowledged):
    """What is wrong with the journal beside these acknowledged keys: those that it has not, and those that it has twice."""
    kept = keys_kept(folder, rb"k\d+-\d+")
    return sorted(set(acknowledged) - set(kept))[:5], sorted({it for it in kept if kept.count(it) > 1})[:5] if len(kept) != len(set(kept)) else []


def try_threads():
    with server(PROGRAM, routers=2) as running:
        began = time.monotonic()
        load = Load(running.uri, EACH)
        load.wait()
        rate, memory = len(load.acknowledged()) / (time.monotonic() - began), running.number_of("memory")
        print(f"told: {THREADS} threads of pymongo, {rate:.0f} inserts a second; the server has {memory} kB")
        checks.compare(f"{THREADS} threads with {EACH} inserts each", (len(load.acknowledged()), load.others()), (THREADS * EACH, []))
        checks.compare("their journal: missing, twice", is_kept(running.folder, load.acknowledged()), ([], []))


def one_kill(number):
    """Kills the server under load. Gives how many inserts were acknowledged, and what is wrong with the journal."""
    with tempfile.TemporaryDirectory() as folder:
        running = Server(PROGRAM, folder, routers=1 + number % 3)
        load = Load(running.uri, EACH)
        while not load.acknowledged() and load.process.poll() is None:
            time.sleep(0.01)
        time.sleep(random.uniform(0, 2))
        running.kill()
        load.wait()
        running.process.stderr.close()
        return len(load.acknowledged()), is_kept(folder, load.acknowledged())


def try_kills(rounds):
    total, wrong = 0, []
    for number in range(rounds):
        count, found = one_kill(number)
        total += count
        wrong += [(number, found)] if found != ([], []) or count == 0 else []
    checks.compare(f"{rounds} kills under load, {total} acknowledged inserts: missing, twice", wrong, [])


def main():
    rounds = next((int(it) for it in WORDS if it.isdecimal()), 20)
    parts = {"apps": try_apps, "example": try_example, "pages": try_pages, "threads": try_threads, "kills": lambda: try_kills(rounds)}
    for name in [it for it in WORDS if it in parts] or parts:
        parts[name]()
    checks.end()


main()
