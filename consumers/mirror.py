#!/usr/bin/env python3
"""Copies the published files of one output from `cdc serve` into a folder, and goes on where the copy ends.

    mirror.py HOST:PORT FOLDER [--user NAME] [--server ID]

One call asks for all that the copy hasn't yet, and ends where the published files end; a timer that calls it again keeps
the copy fresh. With `--user` it logs in with the password in the environment's CDC_PASSWORD (none: without one). A copy
that was broken off is cut behind its last whole event first. The last line says how far the copy is: FILE LENGTH.

Status 0: the copy has all that was published when it was asked for. 1: the connection failed, broke off, or the server
refused it, which the error stream says; the copy has what came. 2: the words. Python's standard library is all it needs.
"""
import argparse
import hashlib
import os
import pathlib
import re
import socket
import struct
import sys
import time

MAGIC = b"\xfebin"
ROTATE, FORMAT = 4, 15
ARTIFICIAL = 0x20
NO_WAIT = 1
NATIVE = b"mysql_native_password"
MOST = 0xFFFFFF   # bytes of one packet
SECONDS = 150   # more than the 60 that the server waits for another client
GREETING_SECONDS = 5
START_SECONDS = 5


class Refused(Exception):
    """The server's answer is an error, or none that was asked for."""


def connected(host, port):
    """A connection; where nobody listens, as while a server is started again, it is tried for some seconds."""
    end = time.monotonic() + START_SECONDS
    while True:
        try:
            return socket.create_connection((host, port), timeout=SECONDS)
        except ConnectionRefusedError:
            if time.monotonic() > end:
                raise
            time.sleep(0.1)


class Link:
    """A connection that takes and gives packets."""

    def __init__(self, host, port):
        self.socket = connected(host, port)
        self.stream = self.socket.makefile("rb")
        self.sequence = 0

    def exactly(self, count):
        """So many bytes."""
        piece = self.stream.read(count)
        if len(piece) < count:
            raise Refused("the server ended the connection")
        return piece

    def take(self):
        """The next payload, put together from its packets."""
        payload = b""
        while True:
            head = self.exactly(4)
            length = int.from_bytes(head[:3], "little")
            self.sequence = head[3] + 1 & 0xFF
            payload += self.exactly(length)
            if length < MOST:
                return payload

    def give(self, payload):
        """Sends a payload of less than 16 MiB as one packet."""
        self.socket.sendall(len(payload).to_bytes(3, "little") + bytes([self.sequence]) + payload)

    def ask(self, payload):
        """Begins a request."""
        self.sequence = 0
        self.give(payload)

    def close(self):
        self.socket.close()


def failing(payload):
    """The text of an error's payload."""
    return f"{int.from_bytes(payload[1:3], 'little')} {payload[9:].decode(errors='replace')}"


def answer_to(salt, password):
    """What a password answers to a salt; nothing for none."""
    if not password:
        return b""
    once = hashlib.sha1(password.encode()).digest()
    mixed = hashlib.sha1(salt + hashlib.sha1(once).digest()).digest()
    return bytes(left ^ right for left, right in zip(once, mixed))


def log_in(link, name, password):
    """Takes the greeting and logs in by mysql_native_password."""
    link.socket.settimeout(GREETING_SECONDS)
    try:
        greeting = link.take()
    except TimeoutError:
        raise Refused("no greeting: the server has no users, so that --user is to be left out") from None
    link.socket.settimeout(SECONDS)
    behind = greeting.index(b"\0", 1) + 1 + 4
    salt = greeting[behind:behind + 8] + greeting[behind + 27:behind + 39]
    answer = answer_to(salt, password)
    # protocol 4.1, an answer behind one byte of length, a plugin's name; packets of up to 16 MiB; utf8
    head = struct.pack("<IIB23x", 0x200 | 0x8000 | 0x80000, MOST, 33)
    link.give(head + name.encode() + b"\0" + bytes([len(answer)]) + answer + NATIVE + b"\0")
    reply = link.take()
    if reply[:1] == b"\xff":
        raise Refused(failing(reply))


def file_number(name):
    """The number of a published file's name; none for any other name."""
    found = re.fullmatch(r"binlog\.(\d{6,})", name)
    return int(found.group(1)) if found else None


def whole_length(path):
    """How many bytes of a log file are the magic and whole events."""
    size = path.stat().st_size
    with path.open("rb") as file:
        if file.read(4) != MAGIC:
            return 0
        place = 4
        while place + 19 <= size:
            file.seek(place + 9)
            length = int.from_bytes(file.read(4), "little")
            if length < 19 or place + length > size:
                break
            place += length
    return place


def end_of(folder):
    """The last file of a copy and its whole length, behind which it is cut; no name where there is no copy."""
    names = [name for name in os.listdir(folder) if file_number(name)]
    if not names:
        return "", 4
    name = max(names, key=file_number)
    length = whole_length(folder / name)
    os.truncate(folder / name, length)
    return name, max(length, 4)


class Copy:
    """The file of the copy that is written."""

    def __init__(self, folder):
        self.folder = folder
        self.file = None
        self.name = ""
        self.begun = True   # whether the asked place was passed

    def turn_to(self, place, name):
        """Goes on in this file at this place."""
        if file_number(name) is None:
            raise Refused(f"a file of the name {name!r}")
        self.close()
        self.name = name
        self.begun = place == 4
        self.file = (self.folder / name).open("wb" if place == 4 else "r+b")
        if place == 4:
            self.file.write(MAGIC)
        else:
            self.file.seek(place)

    def take(self, event):
        """Takes the next event of a dump."""
        kind, following, flags = event[4], int.from_bytes(event[13:17], "little"), int.from_bytes(event[17:19], "little")
        if kind == ROTATE and flags & ARTIFICIAL:
            self.turn_to(int.from_bytes(event[19:27], "little"), event[27:].decode())
        elif self.file is None:
            raise Refused("a dump that doesn't begin with its file")
        elif not self.begun and kind == FORMAT and following == 0:
            self.begun = True   # the file's first event, which the copy has
        else:
            self.file.write(event)

    def close(self):
        if self.file:
            self.file.flush()
            os.fsync(self.file.fileno())
            self.file.close()
            self.file = None


def copy_all(link, folder, server):
    """Asks for what the copy hasn't, and takes it."""
    name, place = end_of(folder)
    link.ask(b"\x12" + struct.pack("<IHI", place, NO_WAIT, server) + name.encode())
    copy = Copy(folder)
    try:
        while True:
            payload = link.take()
            if payload[:1] == b"\xfe" and len(payload) < 9:
                return
            if payload[:1] == b"\xff":
                raise Refused(failing(payload))
            if payload[:1] != b"\0":
                raise Refused("a login is wanted: --user")
            copy.take(payload[1:])
    finally:
        copy.close()


def words():
    parser = argparse.ArgumentParser(description=__doc__.split("\n")[0])
    parser.add_argument("server_at", metavar="HOST:PORT")
    parser.add_argument("folder", type=pathlib.Path)
    parser.add_argument("--user")
    parser.add_argument("--server", type=int, default=4_000_000_001, help="the server id of this client")
    return parser.parse_args()


def main():
    asked = words()
    host, _, port = asked.server_at.rpartition(":")
    if not port.isdigit():
        sys.exit("mirror.py: no HOST:PORT")
    asked.folder.mkdir(parents=True, exist_ok=True)
    try:
        link = Link(host, int(port))
        try:
            if asked.user is not None:
                log_in(link, asked.user, os.environ.get("CDC_PASSWORD", ""))
            copy_all(link, asked.folder, asked.server)
            link.ask(b"\x01")
        finally:
            link.close()
    except (OSError, Refused) as error:
        print(f"mirror.py: {error}", file=sys.stderr)
        return 1
    name, length = end_of(asked.folder)
    print(f"{name} {length}" if name else "- 0")
    return 0


if __name__ == "__main__":
    sys.exit(main())
