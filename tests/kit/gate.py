"""A gate before a shop, which counts the requests that reach it: its own end of each connection is the shop's."""

import socket
import threading
from contextlib import contextmanager, suppress


class Gate:
    """Passes each connection on to a shop's port, and notes its request's method and path."""

    def __init__(self, shop):
        self.shop, self.asked = shop, []
        self.listener = socket.create_server(("127.0.0.1", 0))
        self.port = self.listener.getsockname()[1]
        threading.Thread(target=self.serve, daemon=True).start()

    def serve(self):
        with suppress(OSError):
            while True:
                client = self.listener.accept()[0]
                threading.Thread(target=self.pass_on, args=(client,), daemon=True).start()

    def pass_on(self, client):
        with client, suppress(OSError):
            head = b""
            while b"\r\n\r\n" not in head:
                came = client.recv(1 << 16)
                if not came:
                    return
                head += came
            self.asked.append(" ".join(head.split(b"\r\n")[0].decode().split(" ")[:2]))
            head, end, body = head.partition(b"\r\n\r\n")
            with socket.create_connection(("127.0.0.1", self.shop.port)) as server:
                server.sendall(head.replace(b"127.0.0.1:%d" % self.port, b"127.0.0.1:%d" % self.shop.port) + end + body)
                threading.Thread(target=self.copy, args=(client, server), daemon=True).start()
                self.copy(server, client)

    @staticmethod
    def copy(source, sink):
        with suppress(OSError):
            while came := source.recv(1 << 16):
                sink.sendall(came)
            sink.shutdown(socket.SHUT_WR)

    def since(self, first):
        """The requests behind the first so many, beside those that look whether anything happened."""
        return [it for it in self.asked[first:] if it != "GET /shop"]


@contextmanager
def gate(it):
    """The page of a terminal comes, and asks, through a gate from here on."""
    before, way = it.address, Gate(it.shop)
    it.address = f"http://127.0.0.1:{way.port}/"
    yield way
    it.address = before
    way.listener.close()
