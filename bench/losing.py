"""A server in the middle that loses replies, for the scripts of this folder."""
import contextlib
import socket
import struct
import threading


def next_message(stream):
    header = stream.read(16)
    return header + stream.read(struct.unpack_from("<i", header)[0] - 16) if len(header) == 16 else b""


def connect(port):
    connection = socket.create_connection(("127.0.0.1", port))
    connection.settimeout(20)
    return connection, connection.makefile("rb")


class Losing:
    """Passes connections on to a server, and loses the first reply to each numbered write together with its connection."""

    def __init__(self, port):
        self.server_port, self.lost, self.seen = port, 0, set()
        self.listener = socket.create_server(("127.0.0.1", 0))
        self.port = self.listener.getsockname()[1]
        threading.Thread(target=self.accept, daemon=True).start()

    def accept(self):
        while True:
            threading.Thread(target=self.pass_on, args=self.listener.accept()[:1], daemon=True).start()

    def is_to_lose(self, request):
        # The driver's own writes have `ordered`. The one that app.py numbers and sends twice itself has not.
        is_numbered = b"\x12txnNumber\0" in request and b"\x08ordered\0" in request
        is_new = request[8:] not in self.seen
        self.seen.add(request[8:])
        return is_numbered and is_new

    def pass_on(self, client):
        server, replies = connect(self.server_port)
        with client, server, replies, client.makefile("rb") as requests, contextlib.suppress(OSError):
            while request := next_message(requests):
                server.sendall(request)
                reply = next_message(replies)
                if self.is_to_lose(request):
                    self.lost += 1
                    client.shutdown(socket.SHUT_RDWR)
                    return
                client.sendall(reply)
