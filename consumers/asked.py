#!/usr/bin/env python3
"""Stands between a client and `cdc serve` with users, and prints what the client asks behind its login, a line a request.

    asked.py PORT HOST:PORT COUNT

listens at PORT of this machine, for COUNT connections one after another, and hands all on to HOST:PORT and back.
"""
import socket
import sys
import threading

NAMES = {0x01: "quit", 0x03: "query", 0x0E: "ping", 0x12: "dump", 0x15: "register", 0x1E: "dump by GTID"}


def pump(source, target, seen):
    """Hands on until the end, and gives each piece to `seen`."""
    try:
        while piece := source.recv(65536):
            seen(piece)
            target.sendall(piece)
        target.shutdown(socket.SHUT_WR)
    except OSError:
        pass


def shown(payload):
    """A request in words."""
    name = NAMES.get(payload[0], f"command {payload[0]}")
    return f"{name}: {payload[1:].decode(errors='replace')}" if payload[0] == 0x03 else name


class Requests:
    """The client's packets, put together from pieces. Those that begin a request have the number 0."""

    def __init__(self):
        self.bytes = b""

    def take(self, piece):
        self.bytes += piece
        while len(self.bytes) >= 4 and len(self.bytes) >= 4 + (length := int.from_bytes(self.bytes[:3], "little")):
            if self.bytes[3] == 0 and length:
                print(shown(self.bytes[4:4 + length]), flush=True)
            self.bytes = self.bytes[4 + length:]


def main(port, server, count):
    host, _, server_port = server.rpartition(":")
    with socket.create_server(("127.0.0.1", int(port))) as door:
        for _ in range(int(count)):
            client, _ = door.accept()
            with client, socket.create_connection((host, int(server_port))) as behind:
                back = threading.Thread(target=pump, args=(behind, client, lambda _: None))
                back.start()
                pump(client, behind, Requests().take)
                back.join()


if __name__ == "__main__":
    if len(sys.argv) != 4:
        sys.exit(__doc__)
    main(*sys.argv[1:])
