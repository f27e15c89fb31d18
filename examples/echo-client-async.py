#!/usr/bin/env python3
"""README: asks the service `echo` many times at once through a Majordomo 0.1 broker, over a DEALER socket (pyzmq).

    echo-client-async.py [tcp://127.0.0.1:5555 [COUNT]]
"""
import sys

import zmq

ADDRESS = sys.argv[1] if len(sys.argv) > 1 else "tcp://127.0.0.1:5555"
COUNT = int(sys.argv[2]) if len(sys.argv) > 2 else 100
WAIT = 5000  # milliseconds


def main():
    context = zmq.Context()
    client = context.socket(zmq.DEALER)
    client.linger = 0
    client.connect(ADDRESS)
    for number in range(COUNT):
        # A DEALER socket puts nothing in front, so the empty frame is written here.
        client.send_multipart([b"", b"MDPC01", b"echo", f"Hello {number}".encode()])
    answered = 0
    while answered < COUNT and client.poll(WAIT):
        empty, header, name, *reply = client.recv_multipart()
        assert [empty, header, name] == [b"", b"MDPC01", b"echo"]
        answered += 1
    print(f"{answered} replies")
    client.close()
    context.term()
    return 0 if answered == COUNT else 1


if __name__ == "__main__":
    sys.exit(main())
