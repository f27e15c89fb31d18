#!/usr/bin/env python3
"""README: hands requests for `echo` to a broker with a store (Titanic), so that they survive the broker and this client: submits,
fetches the replies once they are there, and closes the tickets. Over a REQ socket (pyzmq).

    titanic-client.py [tcp://127.0.0.1:5555 [COUNT]]
"""
import sys
import time

import zmq

ADDRESS = sys.argv[1] if len(sys.argv) > 1 else "tcp://127.0.0.1:5555"
COUNT = int(sys.argv[2]) if len(sys.argv) > 2 else 3
WAIT = 5000  # milliseconds


def ask(client, service, *body):
    """The status and what comes with it."""
    client.send_multipart([b"MDPC01", service, *body])
    if not client.poll(WAIT):
        sys.exit("no answer")
    _header, _name, status, *rest = client.recv_multipart()
    return status, rest


def fetched(client, ticket):
    """The stored reply, once a worker has given it."""
    for _ in range(100):
        status, reply = ask(client, b"titanic.reply", ticket)
        if status == b"200":
            return reply
        if status != b"300":  # 300: it isn't there yet
            break
        time.sleep(0.1)
    sys.exit(f"no reply: {status.decode()}")


def main():
    context = zmq.Context()
    client = context.socket(zmq.REQ)
    client.linger = 0
    client.connect(ADDRESS)
    tickets = []
    for number in range(1, COUNT + 1):
        status, rest = ask(client, b"titanic.request", b"echo", f"Hello {number}".encode())
        if status != b"200":
            sys.exit(f"not kept: {status.decode()}")
        tickets.append(rest[0])  # from here on the request is kept until it is closed
    for ticket in tickets:
        reply = fetched(client, ticket)
        status, _ = ask(client, b"titanic.close", ticket)
        print(ticket.decode(), *(part.decode() for part in reply), "closed" if status == b"200" else status.decode(), flush=True)
    client.close()
    context.term()
    return 0


if __name__ == "__main__":
    sys.exit(main())
