#!/usr/bin/env python3
"""Stands between a Majordomo broker and its peers, and records what passes as a transcript for `majordomo - audit`.

    examples/record-transcript.py PORT HOST:PORT TRANSCRIPT [SECONDS]

Peers connect to 127.0.0.1:PORT, and each gets a connection of its own to the broker at HOST:PORT. Behind SECONDS, or at ^C, the
transcript is written. Clients should ask with bodies that differ: by the body of a REQUEST the address is found that the broker
gave to a client's connection.
"""
import socket
import sys
import threading
import time

GREETING = 64


class Stream:
    """The bytes of one direction: where its messages end, and what they are."""

    def __init__(self):
        self.rest, self.greeted, self.frames = b"", 0, []

    def take(self, data):
        """Pieces of the data, each of which ends at most one message, and the message that it ends."""
        pieces, start = [], 0
        for at, octet in enumerate(data, 1):
            if self.greeted < GREETING:
                self.greeted += 1
                continue
            self.rest += bytes([octet])
            message = self.message()
            if message is not None:
                pieces.append((data[start:at], message))
                start = at
        if start < len(data):
            pieces.append((data[start:], None))
        return pieces

    def message(self):
        """The message that the last byte has ended, if it has."""
        head = 9 if self.rest[0] & 2 else 2
        if len(self.rest) < head or len(self.rest) < head + int.from_bytes(self.rest[1:head], "big"):
            return None
        flags, body, self.rest = self.rest[0], self.rest[head:], b""
        if flags & 4:
            return None
        self.frames.append(body)
        if flags & 1:
            return None
        message, self.frames = self.frames, []
        return message[1:] if message[0] == b"" else message


class Connection:
    def __init__(self, lane):
        self.lane, self.opened, self.address, self.asked, self.service = lane, lane, None, [], None
        self.streams = {"in": Stream(), "out": Stream()}


class Recorder:
    def __init__(self):
        self.lock, self.lines, self.all, self.lanes = threading.Lock(), [], [], set()

    def open(self):
        with self.lock:
            lane = next(n for n in range(64) if n not in self.lanes)
            self.lanes.add(lane)
            connection = Connection(lane)
            self.all.append(connection)
            self.lines.append(connection)
            return connection

    def passes(self, connection, way, data):
        """Notes what passes. None of it is noted behind the connection's close."""
        with self.lock:
            if connection.lane is None:
                return
            for piece, message in connection.streams[way].take(data):
                # A line has 65,536 bytes at most.
                for at in range(0, len(piece), 65536):
                    self.lines.append(f"{way} {connection.lane} {piece[at:at + 65536].hex()}")
                if message is not None:
                    self.heard(connection, way, message)

    def heard(self, connection, way, message):
        kind = message[0]
        if way == "in" and kind == b"MDPC01":
            connection.asked.append((message[1], message[2:]))
        elif way == "in" and kind == b"MDPC02" and message[1:2] == [b"\x01"]:
            connection.asked.append((message[2], message[3:]))
        elif way == "in" and kind in (b"MDPW01", b"MDPW02") and message[1:2] == [b"\x01"]:
            connection.service = message[2]
        elif way == "out" and kind in (b"MDPW01", b"MDPW02") and message[1:2] == [b"\x02"]:
            self.named(message[2], connection.service, message[4:])

    def named(self, address, service, body):
        """A REQUEST has this address: it is that of the first connection without one that asked so."""
        if any(known.address == address for known in self.all):
            return
        for asking in self.all:
            if asking.address is None and (service, body) in asking.asked:
                asking.address = address
                return

    def close(self, connection):
        with self.lock:
            if connection.lane is not None:
                self.lines.append(f"close {connection.lane}")
                self.lanes.discard(connection.lane)
                connection.lane = None

    def write(self, path):
        with self.lock, open(path, "w") as file:
            for number, line in enumerate(self.lines, 1):
                if isinstance(line, Connection):
                    # No REQUEST has named this connection: any address does that nobody has.
                    address = line.address or b"unnamed connection of line %d" % number
                    file.write(f"open {line.opened} {address.hex()}\n")
                else:
                    file.write(line + "\n")


def pump(recorder, connection, way, source, sink):
    try:
        while True:
            data = source.recv(65536)
            if not data:
                break
            # What is received is noted before it is handed on, and what is sent as soon as it is there.
            recorder.passes(connection, way, data)
            sink.sendall(data)
    except OSError:
        pass
    recorder.close(connection)
    for end in (source, sink):
        try:
            end.shutdown(socket.SHUT_RDWR)
        except OSError:
            pass


def serve(recorder, listener, broker):
    while True:
        peer, _ = listener.accept()
        try:
            far = socket.create_connection(broker)
        except OSError:
            peer.close()
            continue
        for end in (peer, far):
            end.setsockopt(socket.IPPROTO_TCP, socket.TCP_NODELAY, 1)
        connection = recorder.open()
        for way, source, sink in (("in", peer, far), ("out", far, peer)):
            threading.Thread(target=pump, args=(recorder, connection, way, source, sink), daemon=True).start()


def main():
    if len(sys.argv) not in (4, 5):
        sys.exit(__doc__)
    host, _, port = sys.argv[2].rpartition(":")
    listener = socket.create_server(("127.0.0.1", int(sys.argv[1])))
    recorder = Recorder()
    threading.Thread(target=serve, args=(recorder, listener, (host, int(port))), daemon=True).start()
    try:
        time.sleep(float(sys.argv[4]) if len(sys.argv) == 5 else 1e9)
    except KeyboardInterrupt:
        pass
    recorder.write(sys.argv[3])


main()
