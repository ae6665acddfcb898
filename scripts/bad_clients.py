"""Clients that misbehave, as generators: each `next` makes the client go on, and closing the generator ends it."""

import contextlib

from served import Client, is_same

CALLS = 4000


def silent(port):
    """Sixteen clients that send nothing."""
    clients = [Client(port) for _ in range(16)]
    while clients:
        yield


def disconnecting(port):
    """Each client disconnects in the middle of a line."""
    while True:
        client = Client(port)
        client.send(b"hello alpha ka\nshow mode\nshow mo")
        client.close()
        yield


def resetting(port):
    """Each client resets its connection while answers are on their way."""
    while True:
        client = Client(port)
        client.send(b"hello alpha ka\nshow mode\n")
        client.reset()
        yield


def endless_line(port):
    """Each client sends a megabyte without an LF."""
    while True:
        client = Client(port)
        with contextlib.suppress(OSError):
            client.send(b"x" * 1048576)
        is_same("a megabyte", client.rest(), "bye bad-line\n")
        client.close()
        yield


def not_utf8(port):
    """Each client sends bytes that aren't UTF-8."""
    while True:
        client = Client(port)
        client.send(b"hello alpha ka\nfly \xff\nfly\n")
        is_same("a line that isn't UTF-8", client.rest(), "ok hello\nbye bad-line\n")
        client.close()
        yield


def asking(port):
    """A client that has sent more requests than it will read answers to."""
    client = Client(port)
    client.socket.setblocking(False)
    client.socket.send(b"hello alpha ka\n" + b"show all\n" * CALLS)
    return client


def send_more(client):
    """Sends until the connection takes no more."""
    with contextlib.suppress(OSError):
        for _ in range(1000):
            client.socket.send(b"fly\n" * 10000)


def slow_reader(port):
    """A client that always sends requests, and reads a hundred bytes at each step."""
    client = asking(port)
    while True:
        send_more(client)
        with contextlib.suppress(OSError):
            client.socket.recv(100)
        yield


def never_reading(port):
    """A client that always sends requests, and reads nothing."""
    client = asking(port)
    while True:
        send_more(client)
        yield


BAD_CLIENTS = [silent, disconnecting, resetting, endless_line, not_utf8, slow_reader, never_reading]
