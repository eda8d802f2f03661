"""Inserts for the built program, and what its journals hold of them: ordered inserts of three documents by document
sequence, under keys of several kinds. Other files of this folder take it in.
"""
import pathlib
import struct
import subprocess
import sys
import tempfile

TOP = pathlib.Path(__file__).resolve().parent.parent


def built():
    """The program itself, which `cluster` builds where it is not built: a run of the empty script does so."""
    with tempfile.TemporaryDirectory() as folder:
        if subprocess.run([TOP / "cluster", "sim"], cwd=folder, stdin=subprocess.DEVNULL).returncode != 0:
            sys.exit("the program is not built")
    return str(TOP / "crates" / "cluster_main" / "out" / "cluster_main")


# The documents of a request.
EACH = 3


def element(kind, name, value):
    return bytes([kind]) + name.encode() + b"\0" + value


def document(*elements):
    inner = b"".join(elements)
    return struct.pack("<i", len(inner) + 5) + inner + b"\0"


def text(value):
    return struct.pack("<i", len(value) + 1) + value.encode() + b"\0"


def key(number):
    """The member `_id`, of one of four kinds."""
    kinds = [
        (0x10, struct.pack("<i", number)),
        (0x12, struct.pack("<q", number << 32)),
        (0x02, text(f"key {number}")),
        (0x07, struct.pack(">III", 7, 7, number)),
    ]
    kind, value = kinds[number % 4]
    return element(kind, "_id", value)


def kept(number):
    """The document of that number."""
    inner = document(element(0x0A, "nothing", b""), element(0x02, "text", text("x" * (number % 50))))
    return document(key(number), element(0x03, "inner", inner))


def numbers_of(request):
    """The numbers of a request's documents."""
    return range(request * EACH, request * EACH + EACH)


def message(request, body, sequence=b""):
    """The bytes of an OP_MSG message: its body, and a sequence of its name and documents."""
    rest = struct.pack("<iiii", request, 0, 2013, 0) + b"\0" + body
    rest += b"\1" + struct.pack("<i", len(sequence) + 4) + sequence if sequence else b""
    return struct.pack("<i", len(rest) + 4) + rest


def documents_of(request):
    """The sequence of a request's documents."""
    return b"documents\0" + b"".join(kept(number) for number in numbers_of(request))


def insert(request):
    """The bytes of a request that inserts its documents into d.c."""
    body = document(element(0x02, "insert", text("c")), element(0x08, "ordered", b"\1"), element(0x02, "$db", text("d")))
    return message(request, body, documents_of(request))


class Run:
    """A run of the program in a folder."""

    def __init__(self, path, folder):
        self.program = subprocess.Popen([path, "pipe"], cwd=folder, stdin=subprocess.PIPE, stdout=subprocess.PIPE)

    def send(self, bytes_):
        self.program.stdin.write(bytes_)
        self.program.stdin.flush()

    def ask(self, bytes_):
        """The reply to a request, whole."""
        self.send(bytes_)
        head = self.program.stdout.read(4)
        if len(head) < 4:
            sys.exit(f"a reply is missing: the program ended with {self.program.wait()}")
        return head + self.program.stdout.read(struct.unpack("<i", head)[0] - 4)


def records(path):
    """The records from the front of the file whose gates are open."""
    file = path.read_bytes()
    place, found = 0, []
    while place + 1 < len(file) and file[place] == 1:
        length = struct.unpack_from("<Q", file, place + 1)[0]
        found.append(file[place + 9 : place + 9 + length])
        place += 9 + length
    return found


def entries(path):
    """The records of entries in a shard's file; beside these it has one of the table of each collection."""
    return [record for record in records(path) if record[:2] == b"\1\2"]


def is_acknowledged(pipe):
    """Whether the next reply says that all documents of its request were inserted."""
    head = pipe.read(4)
    if len(head) < 4:
        return False
    length = struct.unpack("<i", head)[0] - 4
    reply = pipe.read(length)
    start = element(0x10, "n", struct.pack("<i", EACH)) + element(0x10, "ok", struct.pack("<i", 1))
    return len(reply) == length and reply[21:].startswith(start)
