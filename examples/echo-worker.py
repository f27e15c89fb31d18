#!/usr/bin/env python3
"""README: a Majordomo 0.1 worker for the service `echo`, over a DEALER socket (pyzmq): READY, heartbeats, and a new connection
where the broker is silent or says DISCONNECT. It ends behind COUNT answers, or never.

    echo-worker.py [tcp://127.0.0.1:5555 [COUNT]]
"""
import sys
import time

import zmq

ADDRESS = sys.argv[1] if len(sys.argv) > 1 else "tcp://127.0.0.1:5555"
COUNT = int(sys.argv[2]) if len(sys.argv) > 2 else 0
SERVICE = b"echo"
READY, REQUEST, REPLY, HEARTBEAT, DISCONNECT = b"\x01", b"\x02", b"\x03", b"\x04", b"\x05"
INTERVAL, LIVENESS = 2.5, 3  # seconds between heartbeats, and how many may be missing


class Worker:
    def __init__(self):
        self.context, self.socket, self.served = zmq.Context(), None, 0
        self.connect()

    def connect(self):
        """A new connection, with READY as the first message."""
        if self.socket is not None:
            self.socket.close()
        self.socket = self.context.socket(zmq.DEALER)
        self.socket.linger = 1000
        self.socket.connect(ADDRESS)
        self.send(READY, SERVICE)
        self.heard = time.monotonic()
        self.beat = time.monotonic() + INTERVAL

    def send(self, command, *frames):
        self.socket.send_multipart([b"", b"MDPW01", command, *frames])

    def turn(self):
        """Waits for a message up to the next heartbeat."""
        if self.socket.poll(max(0, 1000 * (self.beat - time.monotonic()))):
            self.hear(self.socket.recv_multipart())
        elif time.monotonic() > self.heard + INTERVAL * LIVENESS:
            self.connect()  # the broker has been silent for too long
        if time.monotonic() >= self.beat:
            self.send(HEARTBEAT)
            self.beat = time.monotonic() + INTERVAL

    def hear(self, message):
        self.heard = time.monotonic()
        _empty, header, command, *rest = message
        assert header == b"MDPW01"
        if command == REQUEST:
            address, _empty, *body = rest
            self.send(REPLY, address, b"", *body)
            self.served += 1
        elif command == DISCONNECT:
            self.connect()


def main():
    worker = Worker()
    while COUNT == 0 or worker.served < COUNT:
        worker.turn()
    worker.send(DISCONNECT)
    worker.socket.close()
    worker.context.term()
    print(f"served {worker.served}")
    return 0


if __name__ == "__main__":
    sys.exit(main())
