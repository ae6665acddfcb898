"""Starts the built server, and talks to it over loopback sockets."""

import os
import select
import socket
import subprocess
import time

PATIENCE = 20  # seconds


class Failed(Exception):
    pass


def is_same(what, got, wanted):
    if got != wanted:
        raise Failed("%s: expected %r, got %r" % (what, wanted, got))


def becomes(what, holds):
    """Waits until `holds` returns true."""
    end = time.monotonic() + PATIENCE
    while not holds():
        if time.monotonic() > end:
            raise Failed(what)
        time.sleep(0.01)


class Server:
    """A running server, with its port and its operator.

    `limits` are arguments of the shell's `ulimit`. With them all threads take memory from one heap, so that only their stacks limit how
    many there can be. `variables` are added to the environment."""

    def __init__(self, program, *words, limits=None, patience=PATIENCE, variables=None):
        command = [program, "serve", *words]
        if limits is not None:
            command = ["/bin/sh", "-c", 'ulimit %s; exec "$0" "$@"' % limits, *command]
        pipe, environment = subprocess.PIPE, os.environ | (variables or {}) | ({} if limits is None else {"MALLOC_ARENA_MAX": "1"})
        self.process = subprocess.Popen(command, stdin=pipe, stdout=pipe, stderr=pipe, bufsize=0, env=environment)
        self.patience = patience
        self.pieces = b""
        first = self.line()
        if not first.startswith("ready "):
            raise Failed("the first line is %r, and standard error %r" % (first, self.process.stderr.read()))
        self.port = int(first.split()[1])

    def __enter__(self):
        return self

    def __exit__(self, *_):
        if self.process.poll() is None:
            self.process.kill()
        self.process.wait()
        for stream in (self.process.stdin, self.process.stdout, self.process.stderr):
            stream.close()

    def line(self):
        """The next line of the operator's output."""
        end = time.monotonic() + self.patience
        while b"\n" not in self.pieces:
            if not select.select([self.process.stdout], [], [], max(0, end - time.monotonic()))[0]:
                raise Failed("the operator gets no answer")
            piece = os.read(self.process.stdout.fileno(), 65536)
            if not piece:
                break
            self.pieces += piece
        line, _, self.pieces = self.pieces.partition(b"\n")
        return line.decode()

    def say(self, *lines):
        self.process.stdin.write("".join(line + "\n" for line in lines).encode())

    def ask(self, line, wanted):
        self.say(line)
        is_same(line, self.line(), wanted)

    def ends(self, last="bye close ok", status=0, error=""):
        if last is not None:
            is_same("the last line", self.line(), last)
        try:
            is_same("the status", self.process.wait(self.patience), status)
        except subprocess.TimeoutExpired:
            raise Failed("the program doesn't end") from None
        is_same("what follows the last line", self.pieces + self.process.stdout.read(), b"")
        is_same("standard error", self.process.stderr.read().decode(), error)

    def halt(self):
        self.say("halt")
        self.ends()

    def client(self):
        return Client(self.port)

    def processor(self):
        """The processor seconds that the server has used."""
        with open("/proc/%d/stat" % self.process.pid, encoding="utf-8") as file:
            fields = file.read().rpartition(")")[2].split()
        return (int(fields[11]) + int(fields[12])) / os.sysconf("SC_CLK_TCK")

    def resident(self):
        """The bytes that the server has in memory."""
        with open("/proc/%d/statm" % self.process.pid, encoding="utf-8") as file:
            return int(file.read().split()[1]) * os.sysconf("SC_PAGE_SIZE")

    def held(self):
        """The numbers of descriptors and of threads of the server."""
        return tuple(len(os.listdir("/proc/%d/%s" % (self.process.pid, it))) for it in ("fd", "task"))


class Client:
    """A connection, and what it received. It may come from any loopback address; each has its own ports."""

    def __init__(self, port, host="127.0.0.1"):
        self.socket = socket.create_connection(("127.0.0.1", port), PATIENCE, (host, 0))
        self.pieces = b""
        # whether the connection ended before the LF of a line
        self.is_cut = False

    def send(self, data):
        self.socket.sendall(data)

    def line(self):
        while b"\n" not in self.pieces:
            try:
                piece = self.socket.recv(65536)
            except TimeoutError:
                raise Failed("a client gets no answer") from None
            if not piece:
                self.is_cut = True
                break
            self.pieces += piece
        line, _, self.pieces = self.pieces.partition(b"\n")
        return line.decode()

    def ask(self, line, wanted):
        self.send(line.encode() + b"\n")
        is_same(line[:60], self.line(), wanted)

    def rest(self):
        """All that follows, up to the end of the connection."""
        while True:
            try:
                piece = self.socket.recv(65536)
            except ConnectionResetError:
                piece = b""
            except TimeoutError:
                raise Failed("a connection isn't ended") from None
            if not piece:
                return self.pieces.decode()
            self.pieces += piece

    def close(self):
        self.socket.close()

    def reset(self):
        """Resets the connection, which drops all data on the way."""
        self.socket.setsockopt(socket.SOL_SOCKET, socket.SO_LINGER, b"\x01\0\0\0\0\0\0\0")
        self.socket.close()
