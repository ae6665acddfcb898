"""Checks how sessions and the server end: silence, a stop and a continue, halts, and an operator whose input or output ends or fails."""

import os
import select
import signal
import subprocess
import time

from served import PATIENCE, Failed, Server, is_same


def silent_client(program):
    """With --idle a client that sends nothing is ended. A line that it has only begun isn't carried out. A client that sends goes on."""
    with Server(program, "--idle", "1") as server:
        silent, half, busy = server.client(), server.client(), server.client()
        busy.ask("hello alpha ka", "ok hello")
        half.send(b"hello alpha ka\noffer a to beta from 0 to 1")
        start = time.monotonic()
        for _ in range(4):
            time.sleep(0.4)
            busy.ask("show mode", "ok mode empty")
        is_same("silence", silent.rest(), "")
        is_same("half a line", half.rest(), "ok hello\n")
        if not 0.9 < time.monotonic() - start < 4:
            raise Failed("a silent client was ended after %.1f seconds" % (time.monotonic() - start))
        busy.ask("rows", "ok rows")
        busy.ask("quit", "bye")
        server.halt()


def stopped_and_continued(program):
    """A stop and a continue of the server end no session, with and without --idle, and no operator."""
    for words in ((), ("--idle", "3")):
        with Server(program, *words) as server:
            clients = [server.client() for _ in range(3)]
            for client in clients:
                client.ask("hello alpha ka", "ok hello")
            for _ in range(5):
                time.sleep(0.1)
                server.process.send_signal(signal.SIGSTOP)
                time.sleep(0.1)
                server.process.send_signal(signal.SIGCONT)
            for client in clients:
                client.ask("show mode", "ok mode empty")
                client.ask("quit", "bye")
            server.ask("tick 5", "ok tick 0")
            server.halt()


def waiting_halt(program):
    """A halt accepts no further connection and waits for the open ones. A second halt ends them, even if the client doesn't read."""
    with Server(program) as server:
        client = server.client()
        client.ask("hello alpha ka", "ok hello")
        server.say("halt")
        time.sleep(0.3)
        client.ask("show mode", "ok mode empty")
        try:
            late = server.client()
            if late.rest() != "":
                raise Failed("a connection was accepted after the halt")
        except (ConnectionError, OSError):
            pass
        if server.process.poll() is not None:
            raise Failed("the halt didn't wait")
        client.ask("quit", "bye")
        server.ends()
    with Server(program) as server:
        clients = [server.client() for _ in range(10)]
        deaf = server.client()
        deaf.socket.setblocking(False)
        end = time.monotonic() + 0.5
        while time.monotonic() < end:
            try:
                deaf.socket.send(b"fly\n" * 10000)
            except BlockingIOError:
                time.sleep(0.01)
        server.say("halt")
        time.sleep(0.3)
        if server.process.poll() is not None:
            raise Failed("the halt didn't wait")
        server.say("wait", "halt")
        server.ends()
        for client in clients:
            is_same("a session at the second halt", client.rest(), "")


def drained(program):
    """With --drain the sessions that are still open so long after a halt are ended, however the server was halted."""
    for ends in (lambda server: server.say("halt"), lambda server: server.process.stdin.close()):
        with Server(program, "--drain", "1") as server:
            quick, slow = server.client(), server.client()
            for client in (quick, slow):
                client.ask("hello alpha ka", "ok hello")
            start = time.monotonic()
            ends(server)
            quick.ask("show mode", "ok mode empty")
            quick.ask("quit", "bye")
            time.sleep(0.5)
            slow.ask("show mode", "ok mode empty")
            server.ends()
            if not 0.9 < time.monotonic() - start < 4:
                raise Failed("the sessions were ended after %.1f seconds" % (time.monotonic() - start))
            is_same("the session that was ended", slow.rest(), "")


def other_ends(program):
    """The server ends at the end of the operator's input, at a line of it that is too long or not UTF-8, and if it can't write."""
    for given in (b"", b"tick 5", b"tick 5\n\xff\n", b"tick 5\n" + b"x" * 20000 + b"\n"):
        with Server(program) as server:
            server.process.stdin.write(given)
            server.process.stdin.close()
            if given:
                is_same("a line", server.line(), "ok tick 0")
            server.ends()
    with Server(program) as server:
        # at the end of the input the server waits for the open sessions, as at a halt
        client = server.client()
        client.ask("hello alpha ka", "ok hello")
        server.process.stdin.close()
        time.sleep(0.3)
        client.ask("show mode", "ok mode empty")
        client.ask("quit", "bye")
        server.ends()
    for given in ("tick 5", "halt"):
        # also if only the last line can't be written
        with Server(program) as server:
            server.process.stdout.close()
            server.say(given)
            is_same("the status after %s" % given, server.process.wait(PATIENCE), 3)
            is_same("standard error", server.process.stderr.read(), b"io: write\n")


def unread_operator(program):
    """If the operator's input can't be read, the server ends as after a halt, with status 3."""
    folder = os.open("/", os.O_RDONLY)
    try:
        ran = subprocess.run([program, "serve"], stdin=folder, capture_output=True, text=True, timeout=PATIENCE)
    finally:
        os.close(folder)
    is_same("the lines after the port's", ran.stdout.splitlines()[1:], ["bye close ok"])
    is_same("the status and standard error", (ran.returncode, ran.stderr), (3, "io: read\n"))


def failed_operator(program):
    """If the operator's output is closed, the server says so at once on standard error, and waits for the sessions."""
    with Server(program) as server:
        client = server.client()
        client.ask("hello alpha ka", "ok hello")
        server.process.stdout.close()
        server.say("tick 5")
        if not select.select([server.process.stderr], [], [], PATIENCE)[0]:
            raise Failed("nothing is on standard error")
        is_same("standard error", server.process.stderr.readline(), b"io: write\n")
        client.ask("show mode", "ok mode empty")
        client.ask("quit", "bye")
        is_same("the status", server.process.wait(PATIENCE), 3)
        is_same("the rest of standard error", server.process.stderr.read(), b"")


CASES = [
    silent_client,
    stopped_and_continued,
    waiting_halt,
    drained,
    other_ends,
    unread_operator,
    failed_operator,
]
