"""A client of `rig_host serve`: a session of one tenant, and the operator. It needs only Python's standard library.

    with Server("rig_host") as rig, Session(rig.port, "alpha", "ka") as alpha:
        alpha.load("heater.giotto")
        rig.tick(150)
        print(alpha.ask("show mode"))
"""

import socket
import subprocess


class Refused(Exception):
    """A line that had to be accepted, and its answer."""


class Lines:
    """Sends lines to `out`, and reads the answer to each, also a line, from `into`."""

    def ask(self, line):
        """The answer to a line. A blank line has none, so it raises a `ValueError`."""
        if not line.strip() or "\n" in line:
            raise ValueError("no line, or a blank one: %r" % line)
        self.out.write(line + "\n")
        self.out.flush()
        answer = self.into.readline()
        if not answer:
            raise ConnectionError("ended without an answer to " + line)
        return answer.rstrip("\n")

    def must(self, line):
        """The answer to a line that has to be accepted."""
        answer = self.ask(line)
        if not answer.startswith("ok "):
            raise Refused(line, answer)
        return answer

    def __enter__(self):
        return self

    def __exit__(self, *_):
        self.close()


class Session(Lines):
    """A session of a tenant, on a port of this machine. It begins again by itself when it has made 4,096 calls, which is the most."""

    def __init__(self, port, name, key):
        self.port, self.hello = port, "hello %s %s" % (name, key)
        self.begin()

    def begin(self):
        """Connects, and greets the server."""
        self.stream = socket.create_connection(("127.0.0.1", self.port))
        self.out = self.into = self.stream.makefile("rw", encoding="utf-8", newline="\n")
        try:
            self.must(self.hello)
        except Exception:
            self.close()
            raise

    def ask(self, line):
        answer = super().ask(line)
        if answer != "bye pass-full":
            return answer
        self.close()
        self.begin()
        return super().ask(line)

    def load(self, path, command="load"):
        """Sends `load`, or `replace` as `command`, with the program of a file in one line: line ends become blanks."""
        with open(path, encoding="utf-8") as file:
            return self.must(command + " " + file.read().replace("\n", " "))

    def close(self):
        self.out.close()
        self.stream.close()


class Server(Lines):
    """A server with these arguments, and its operator. After `close`, `closed` has its last line."""

    def __init__(self, program, *words):
        self.ran = subprocess.Popen(
            [program, "serve", *words], stdin=subprocess.PIPE, stdout=subprocess.PIPE, encoding="utf-8"
        )
        self.out, self.into = self.ran.stdin, self.ran.stdout
        ready = self.into.readline().split()
        if ready[:1] != ["ready"]:
            raise ConnectionError("no server: status %d" % self.ran.wait())
        self.port = int(ready[1])

    def close(self):
        """Ends the operator's input, which halts the server, and waits for it."""
        self.out.close()
        self.closed = self.into.read().rstrip("\n")
        self.ran.wait()
