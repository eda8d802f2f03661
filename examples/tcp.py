#!/usr/bin/env python3
"""Serves MongoDB drivers over TCP: passes whole messages from any number of connections to one `cluster pipe`, one request at a time.

    tcp.py [PORT [PROGRAM]]      without arguments port 27017 and ../cluster; the journals are files in the current folder

Bytes that are no message would end the program, so each message is first checked as docs/WIRE.md says, and a connection that sends anything
else is closed. Where the program ends, as when a disk fails or memory runs out, this ends with its status; a new start in this folder goes on
from its files."""
import contextlib, os, pathlib, socket, struct, subprocess, sys, threading

PING = bytes.fromhex("330000000000000000000000dd07000000000000001e0000001070696e670001000000022464620006000000") + b"admin\0\0"
TURN = threading.Lock()

def number(data, at):
    return struct.unpack_from("<i", data, at)[0] if len(data) >= at + 4 else -1

def read_message(stream):
    header = stream.read(16)
    message = header + stream.read(number(header, 0) - 16 if 16 < number(header, 0) <= 48_000_000 else 0)
    return message if 16 <= len(message) == number(message, 0) else b""

def is_sequence(data, at, end):
    name, found, _ = data[at:end].partition(b"\0")
    at += len(name) + 1
    while at < end and 5 <= number(data, at) <= end - at:
        at += number(data, at)
    return found and at == end and name.decode(errors="ignore").encode() == name

def is_request(data):
    if number(data, 12) == 2004:  # OP_QUERY
        greets = data[43:44] > b"\0" and data[44:].startswith((b"isMaster\0", b"ismaster\0", b"hello\0"))
        return greets and data[20:31] == b"admin.$cmd\0" and number(data, 39) == len(data) - 39
    at, bodies, is_right = 20, 0, number(data, 12) == 2013 and len(data) >= 20 and number(data, 16) & 0xFFFD == 0  # OP_MSG
    while is_right and at < len(data):
        kind, start, at = data[at], at + 1, at + 1 + number(data, at + 1)
        is_right = start + 5 <= at <= len(data) and (kind == 0 or kind == 1 and is_sequence(data, start + 4, at))
        bodies += kind == 0
    return is_right and bodies == 1

def ask(request):
    with TURN, contextlib.suppress(BrokenPipeError):
        program.stdin.write(request), program.stdin.flush()
        if number(request, 12) == 2013 and request[16] & 2:  # moreToCome: there is no reply
            return b""
        if (reply := read_message(program.stdout))[8:12] == request[4:8]:
            return reply
    os._exit(program.wait())

def serve(connection):
    with contextlib.suppress(OSError), connection, connection.makefile("rb") as stream:
        while is_request(request := read_message(stream)):
            connection.sendall(ask(request))

path = sys.argv[2] if len(sys.argv) > 2 else pathlib.Path(__file__).resolve().parent.parent / "cluster"
with contextlib.suppress(KeyboardInterrupt), socket.create_server(("127.0.0.1", int(sys.argv[1]) if len(sys.argv) > 1 else 27017)) as server:
    program = subprocess.Popen([path, "pipe"], stdin=subprocess.PIPE, stdout=subprocess.PIPE)
    ask(PING)
    print(f"tcp: mongodb://127.0.0.1:{server.getsockname()[1]}", file=sys.stderr, flush=True)
    while True:
        threading.Thread(target=serve, args=server.accept()[:1], daemon=True).start()
