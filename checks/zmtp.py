"""What the checks share: a small ZMTP 3.0 peer (NULL) over a plain socket, and the program's broker as a process."""
import atexit
import os
import signal
import socket
import subprocess
import sys
import time


def ended(*_):
    """Ends the script, and with it what it started; a second signal changes nothing."""
    signal.signal(signal.SIGTERM, signal.SIG_IGN)
    sys.exit(143)


signal.signal(signal.SIGTERM, ended)

GREETING = bytes.fromhex("ff00000000000000007f03004e554c4c") + bytes(48)


class Gone(Exception):
    """The other side has ended the connection."""


class Peer:
    """A connection to the broker that sends and receives messages, as lists of frames."""

    def __init__(self, address, kind=b"DEALER", timeout=5.0, small=False, greet=True):
        host, port = address.rsplit(":", 1)
        self.socket = socket.socket()
        if small:  # a small window, so that little waits in the system
            self.socket.setsockopt(socket.SOL_SOCKET, socket.SO_RCVBUF, 4096)
        self.socket.settimeout(timeout)
        self.socket.connect((host, int(port)))
        self.socket.setsockopt(socket.IPPROTO_TCP, socket.TCP_NODELAY, 1)
        self.kind, self.buffer, self.has_sent, self.is_accepted = kind, bytearray(), False, False
        if greet:
            self.greet()

    def greet(self, timeout=None):
        """Both greetings and both READYs. Where it ends by a timeout it can be called again."""
        if not self.has_sent:
            self.has_sent = True
            self._begin()
        deadline = deadline_in(timeout if timeout is not None else self.socket.gettimeout())
        if not self.is_accepted:
            while len(self.buffer) < 64:
                self._more(deadline)
            if self.buffer[:64] != GREETING:
                raise ValueError(f"not the broker's greeting: {self.buffer[:64].hex()}")
            del self.buffer[:64]
            self.is_accepted = True
        flags, body = self._frame(deadline)
        if flags != 4 or body != b"\x05READY\x0bSocket-Type\x00\x00\x00\x06ROUTER":
            raise ValueError(f"not the broker's READY: {body.hex()}")

    def _begin(self):
        kind = len(self.kind).to_bytes(4, "big") + self.kind
        self.socket.sendall(GREETING + frame(b"\x05READY\x0bSocket-Type" + kind, 4))

    def send(self, *frames):
        try:
            self.socket.sendall(message(*frames))
        except (BrokenPipeError, ConnectionResetError) as error:
            raise Gone from error

    def receive(self, timeout=5.0):
        """The next message; TimeoutError where none comes in time, Gone where none will come."""
        deadline, frames = deadline_in(timeout), []
        while True:
            flags, body = self._frame(deadline)
            if flags & 4:
                continue
            frames.append(body)
            if not flags & 1:
                return frames

    def ask(self, service, *body, timeout=5.0):
        """Sends a request of version 0.1, and gives the body of the reply."""
        self.send(b"", b"MDPC01", service, *body)
        reply = self.receive(timeout)
        if reply[:3] != [b"", b"MDPC01", service]:
            raise ValueError(f"not a reply of {service.decode()}: {reply[:3]}")
        return reply[3:]

    def close(self, at_once=False):
        """Closes; `at_once` drops what is under way, by a reset."""
        if at_once:
            self.socket.setsockopt(socket.SOL_SOCKET, socket.SO_LINGER, bytes([1, 0, 0, 0, 0, 0, 0, 0]))
        self.socket.close()

    def _frame(self, deadline):
        """The next whole frame. It is taken out of the buffer once it is whole, so that a timeout loses nothing."""
        while True:
            head = 9 if self.buffer and self.buffer[0] & 2 else 2
            if len(self.buffer) >= head:
                size = int.from_bytes(self.buffer[1:head], "big")
                if len(self.buffer) >= head + size:
                    flags, body = self.buffer[0], bytes(self.buffer[head : head + size])
                    del self.buffer[: head + size]
                    return flags, body
            self._more(deadline)

    def _more(self, deadline):
        left = deadline - time.monotonic()
        if left <= 0:
            raise TimeoutError
        self.socket.settimeout(left)
        try:
            piece = self.socket.recv(65536)
        except ConnectionResetError as error:
            raise Gone from error
        if not piece:
            raise Gone
        self.buffer += piece


def deadline_in(seconds):
    return time.monotonic() + seconds


def frame(body, flags=0):
    if len(body) < 256:
        return bytes([flags, len(body)]) + body
    return bytes([flags | 2]) + len(body).to_bytes(8, "big") + body


def message(*frames):
    return b"".join(frame(body, 1) for body in frames[:-1]) + frame(frames[-1])


def worker(address, service, **options):
    """A worker of version 0.1 that has registered."""
    peer = Peer(address, **options)
    peer.send(b"", b"MDPW01", b"\x01", service)
    return peer


def serve_one(peer, timeout=5.0, answer=None):
    """Answers the worker's next REQUEST with its own body, or with this one."""
    while True:
        order = peer.receive(timeout)
        if order[1:3] == [b"MDPW01", b"\x02"]:
            peer.send(b"", b"MDPW01", b"\x03", order[3], b"", *(order[5:] if answer is None else answer))
            return order[5:]


def start(words, **popen):
    """A process with its outputs as pipes, in a group of its own. What is left of it when the script ends is killed."""
    process = subprocess.Popen(words, stdout=subprocess.PIPE, stderr=subprocess.PIPE, start_new_session=True, **popen)
    atexit.register(kill, process)
    return process


def kill(process):
    """SIGKILL to the process and those that it started, where it still runs; gives what it had printed."""
    if process.returncode is None:
        try:
            os.killpg(process.pid, signal.SIGKILL)
        except ProcessLookupError:
            pass
        return process.communicate()
    return b"", b""


class Broker:
    """The program's broker, and the address at which it listens."""

    def __init__(self, program, place="-", address="127.0.0.1:0", options=(), **popen):
        self.process = start([program, place, "broker", address, *options], stdin=subprocess.DEVNULL, **popen)
        line = self.process.stderr.readline().decode()
        if not line.startswith("listening "):
            out, _ = self.process.communicate(timeout=10)
            raise RuntimeError(f"the broker doesn't listen: {line!r} {out!r}, status {self.process.returncode}")
        self.address = line.split()[1]

    def kill(self):
        """SIGKILL, and the process is gone."""
        kill(self.process)

    def runs(self):
        return self.process.poll() is None


def open_files(process):
    """How many files the process has open, or None where the system doesn't say."""
    try:
        return len(os.listdir(f"/proc/{process.pid}/fd"))
    except OSError:
        return None


class Skipped(Exception):
    """A check can't be made here, for this reason."""


def run(script, checks, program):
    """Makes each check, which is a function of the program's path with a line that describes it; the status of the script."""
    failed = False
    for check in checks:
        start, what = time.monotonic(), check.__doc__.strip()
        try:
            note = check(program)
            print(f"{script}: {what}: ok{f', {note}' if note else ''} ({time.monotonic() - start:.1f} s)", flush=True)
        except Skipped as reason:
            print(f"{script}: {what}: skipped, {reason}", flush=True)
        except Exception as error:  # whatever it is, the others are still made
            print(f"{script}: {what}: FAILED, {type(error).__name__} {error}", flush=True)
            failed = True
    return 1 if failed else 0


def same(what, got, wanted):
    if got != wanted:
        raise AssertionError(f"{what} is {got!r}, not {wanted!r}")
