"""A running `cluster serve` with its messages and its journals, for the scripts of this folder."""
import contextlib
import os
import pathlib
import re
import resource
import socket
import struct
import subprocess
import sys
import tempfile

TOP = pathlib.Path(__file__).resolve().parent.parent
sys.path.insert(0, str(TOP / "bench" / "rows"))

from bson import DOCUMENT, read_fields, shown  # noqa: E402
from inserts import built, entries, records  # noqa: E402
from wire import message  # noqa: E402

__all__ = ["built", "entries", "message", "records"]


def program_of(words):
    """The program that the words name, or the one that `cluster` builds; and the words after it."""
    named = bool(words) and os.path.isfile(words[0])
    return (os.path.abspath(words[0]), words[1:]) if named else (built(), words)


def free_port():
    with socket.create_server(("127.0.0.1", 0)) as it:
        return it.getsockname()[1]


class Server:
    """A server in a folder, once it listens."""

    def __init__(self, program, folder, sessions=100_000, routers=1, port=None, **how):
        self.folder, self.port = pathlib.Path(folder), port or free_port()
        words = [program, "serve", "--port", str(self.port), "--sessions", str(sessions), "--routers", str(routers)]
        self.process = subprocess.Popen(words, cwd=folder, stdin=subprocess.DEVNULL, stderr=subprocess.PIPE, text=True, **how)
        self.said = self.process.stderr.readline()
        self.uri = f"mongodb://127.0.0.1:{self.port}/?retryWrites=true"

    def listens(self):
        return self.said == f"cluster: listening on port {self.port}\n"

    def kill(self):
        self.process.kill()
        self.process.wait()

    def end(self, seconds=30):
        """The status and the last line, where the server ends by itself; else it is killed, and the status is None."""
        try:
            status = self.process.wait(seconds)
        except subprocess.TimeoutExpired:
            self.kill()
            return None, ""
        return status, self.process.stderr.read().strip()

    def number_of(self, what):
        """How many open files, threads or kilobytes of memory the server has; 0 where it has ended."""
        if self.process.poll() is not None:
            return 0
        if what == "files":
            return len(os.listdir(f"/proc/{self.process.pid}/fd"))
        name = {"threads": "Threads", "memory": "VmRSS"}[what]
        return int(re.search(rf"{name}:\s+(\d+)", pathlib.Path(f"/proc/{self.process.pid}/status").read_text())[1])


@contextlib.contextmanager
def server(program, **how):
    """A server in a new folder, killed at the end where it still runs."""
    with tempfile.TemporaryDirectory() as folder:
        running = Server(program, folder, **how)
        try:
            if not running.listens():
                sys.exit(f"served: no server: {running.said}{running.end()}")
            yield running
        finally:
            running.kill()
            running.process.stderr.close()


class Link:
    """A connection that sends messages and reads replies as text."""

    def __init__(self, port, seconds=60):
        self.socket = socket.create_connection(("127.0.0.1", port), timeout=seconds)
        self.socket.setsockopt(socket.IPPROTO_TCP, socket.TCP_NODELAY, 1)
        self.replies = self.socket.makefile("rb")
        self.number = 0

    def send(self, source, **how):
        self.number += 1
        self.socket.sendall(message(self.number, source, **how))

    def reply(self):
        """The next reply, without its time; `end` where the link was closed, `nothing` where none came in time."""
        try:
            header = self.replies.read(16)
            rest = self.replies.read(struct.unpack_from("<i", header)[0] - 16) if len(header) == 16 else b""
        except TimeoutError:
            return "nothing"
        except OSError:
            return "end"
        if not rest:
            return "end"
        told = shown((DOCUMENT, read_fields(header + rest, 21)[0]))
        return re.sub(r"Timestamp\(\d+, \d+\)", "<time>", told)

    def ask(self, source, **how):
        self.send(source, **how)
        return self.reply()

    def close(self):
        self.replies.close()
        self.socket.close()

    def __enter__(self):
        return self

    def __exit__(self, *_):
        self.close()


def keys_kept(folder, form):
    """The string keys of this form that the shard's journal has, once for each entry that has one."""
    wanted = re.compile(rb"\x02_id\0....(" + form + rb")\0", re.S)
    return [key.decode() for record in entries(pathlib.Path(folder) / "node01.journal") for key in wanted.findall(record)]


def allow_files(number):
    """Lets this process and those that it starts open so many files."""
    _, most = resource.getrlimit(resource.RLIMIT_NOFILE)
    resource.setrlimit(resource.RLIMIT_NOFILE, (min(number, most), most))


class Checks:
    """What was tried, each with whether it held."""

    def __init__(self, script):
        self.script, self.wrong = script, 0

    def compare(self, name, got, wanted):
        if got == wanted:
            print(f"ok: {name}", flush=True)
        else:
            print(f"wrong: {name}\n--- wanted\n{wanted}\n--- got\n{got}", flush=True)
            self.wrong += 1

    def end(self):
        print(f"{self.script}: {self.wrong} wrong")
        sys.exit(1 if self.wrong else 0)
