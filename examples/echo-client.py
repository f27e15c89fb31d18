#!/usr/bin/env python3
"""README: asks the service `echo` through a Majordomo 0.1 broker, over a REQ socket (pyzmq); a lost answer is asked for again.

    echo-client.py [tcp://127.0.0.1:5555 [COUNT]]
"""
import sys

import zmq

ADDRESS = sys.argv[1] if len(sys.argv) > 1 else "tcp://127.0.0.1:5555"
COUNT = int(sys.argv[2]) if len(sys.argv) > 2 else 3
TRIES, WAIT = 3, 2500  # the wait is in milliseconds


def connected(context):
    client = context.socket(zmq.REQ)
    client.linger = 0
    client.connect(ADDRESS)
    return client


def ask(context, client, service, *body):
    """The reply's body, or None behind the last try; and the socket, which is a new one behind each try without an answer."""
    for _ in range(TRIES):
        client.send_multipart([b"MDPC01", service, *body])  # the REQ socket puts the empty frame in front
        if client.poll(WAIT):
            header, name, *reply = client.recv_multipart()
            assert header == b"MDPC01" and name == service
            return reply, client
        client.close()  # a REQ socket that waits for a reply can't ask again
        client = connected(context)
    return None, client


def main():
    context = zmq.Context()
    client = connected(context)
    for number in range(1, COUNT + 1):
        reply, client = ask(context, client, b"echo", f"Hello {number}".encode())
        if reply is None:
            print("no answer")
            return 1
        print("reply", *(part.decode() for part in reply), flush=True)
    client.close()
    context.term()
    return 0


if __name__ == "__main__":
    sys.exit(main())
