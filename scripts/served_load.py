"""Checks a server under load: all seats taken, a full pass, no thread for a client, many connections, and 64 sessions at once."""

import os
import random
import socket
import tempfile
import time
from collections import Counter
from concurrent.futures import ThreadPoolExecutor

from served import Client, Failed, Server, becomes, is_same
from served_tenants import BLANKS, SESSIONS, TENANTS, Round, configuration, key, name, rounds_of, tick_of, wanted_of

SEATS = 65536
CALLS = 4096
THREADS = 16
CONNECTIONS = 10000
# The number of rounds with `--long`, and of lines of each session in a round.
LONG_ROUNDS, LONG_LINES = 40, 100
# The most bytes that may stay in memory until the halt: of a connection without calls, and of a repeated question with the same answer.
LEFT = 400
LEFT_BY_A_POLL = 160
# The most processor seconds that eight sessions may take, on any machine, if each makes all calls of a pass.
MOST_OF_POLLS = 0.25

REPLIES = (
    "ok load,ok replace,ok start,ok stop,ok mode,ok port,ok all,ok trace,ok offer,ok unoffer,ok bind,ok unbind,ok rows,err bad-command,"
    "err syntax,err rule,err running,err not-running,err not-loaded,err no-port,err no-tenant,err own,err twice,err not-there,err budget"
).split(",")


def connect_and_end(port, host, times, odd):
    """Makes connections that send nothing and end. Adds what one receives to `odd`, unless it receives nothing."""
    for _ in range(times):
        client = Client(port, host)
        client.socket.shutdown(socket.SHUT_WR)
        received = client.rest()
        if received != "":
            odd.append(received)
        client.close()


def all_seats(program):
    """Once as many connections were accepted as there are seats, the next ones get `bye seats`. Open ones are still answered. The operator
    is warned."""
    with Server(program) as server, ThreadPoolExecutor(THREADS) as pool:
        early, odd, begun = server.client(), [], server.resident()
        early.ask("hello alpha ka", "ok hello")
        # a port can be used again only after a minute, so each thread has an address with its own ports
        threads = [pool.submit(connect_and_end, server.port, "127.0.0.%d" % (2 + it), SEATS // THREADS - (it == 0), odd) for it in range(THREADS)]
        for thread in threads:
            thread.result()
        is_same("what connections with a seat received", odd, [])
        for _ in range(3):
            is_same("one more", server.client().rest(), "bye seats\n")
        early.ask("show mode", "ok mode empty")
        server.ask("tick 1", "ok tick 0")
        early.ask("quit", "bye")
        early.close()
        nothing_held(server)
        leaves_little(begun, server.resident(), SEATS)
        server.say("halt")
        server.ends(error="note: %d of %d seats were given: restart the server before the last one is\n" % (SEATS, SEATS))


def leaves_little(before, after, times, what="connections", most=LEFT):
    """Checks how many bytes each of these connections, or of other things, left in memory."""
    left = (after - before) / times
    if os.environ.get("TIMES"):
        print("%d bytes after %d %s, %.0f for each" % (after, times, what, left))
    if left > most:
        raise Failed("each of %d %s leaves %.0f bytes" % (times, what, left))


def nothing_held(server, most=(5, 4)):
    """Waits until the server has no more descriptors and threads than these."""
    becomes("more than %d descriptors and %d threads are left" % most, lambda: all(a <= b for a, b in zip(server.held(), most)))


def no_thread(program):
    """A connection without a thread gets `bye memory`. Open ones are still answered, and once one has ended another is accepted."""
    with Server(program, limits="-v 200000") as server:
        open_ones = []
        for _ in range(200):
            client = server.client()
            client.send(b"hello alpha ka\n")
            answer = client.line()
            if answer != "ok hello":
                break
            open_ones.append(client)
        is_same("the first client without a thread", answer, "bye memory")
        is_same("what follows it", client.rest(), "")
        if len(open_ones) < 2:
            raise Failed("%d sessions were open" % len(open_ones))
        for client in open_ones:
            client.ask("show mode", "ok mode empty")
        server.ask("tick 1", "ok tick 0")
        last = open_ones.pop()
        last.ask("quit", "bye")
        last.close()
        nothing_held(server, (5 + 2 * len(open_ones), 4 + len(open_ones)))
        client = server.client()
        client.ask("hello beta kb", "ok hello")
        for it in [*open_ones, client]:
            it.ask("quit", "bye")
        server.halt()


def full_pass(program):
    """A session that has made all its calls is ended when it makes one more. The state of its tenant stays.

    Lines that aren't calls don't count."""
    with Server(program) as server:
        alpha = server.client()
        alpha.send(b"hello alpha ka\noffer a to beta\n" + b"fly\n" * 100 + b"show mode\n" * CALLS + b"show mode\n" * 10)
        wanted = ["ok hello", "ok offer"] + ["err bad-command"] * 100 + ["ok mode empty"] * (CALLS - 1) + ["bye pass-full", ""]
        is_same("the answers of a session with too many calls", alpha.rest().split("\n"), wanted)
        again = server.client()
        again.ask("hello alpha ka", "ok hello")
        again.ask("rows", "ok rows offer:a:beta")
        again.ask("quit", "bye")
        server.halt()


def short_session(server, draw):
    """A random connection without calls: with a session, without one, closed in the middle of a line, or reset."""
    client = server.client()
    kind = draw.randrange(6)
    if kind == 0:
        client.send(b"hello alpha ka\nfly\nquit\n")
        is_same("a session", client.rest(), "ok hello\nerr bad-command\nbye\n")
    elif kind == 1:
        client.send(b"hello alpha no\nfly")
        client.socket.shutdown(socket.SHUT_WR)
        is_same("a session without a tenant", client.rest(), "err who\nerr bad-command\n")
    elif kind == 2:
        client.send(b"hello alp")
    elif kind == 3:
        client.send(b"x" * 20000)
        is_same("a line that is too long", client.rest(), "bye bad-line\n")
    elif kind == 4:
        client.send(b"hello alpha ka\nfly\n")
        client.reset()
    client.close()


def connections(program):
    """Connections one after the other leave no descriptor, no thread, and little memory."""
    draw = random.Random(10000)
    with Server(program) as server:
        for _ in range(2):
            begun = server.resident()
            for _ in range(CONNECTIONS // 2):
                short_session(server, draw)
            nothing_held(server)
        leaves_little(begun, server.resident(), CONNECTIONS // 2)
        server.halt()


def polls(program):
    """A client that repeats a question, and gets the same answer, leaves little memory. A call costs no more after many than after few."""
    asked = b"hello alpha ka\n" + b"show mode\n" * (CALLS - 1)
    with Server(program) as server:
        begun, before = server.resident(), server.processor()
        for _ in range(8):
            client = server.client()
            client.send(asked + b"quit\n")
            is_same("a client that polls", client.rest(), "ok hello\n" + "ok mode empty\n" * (CALLS - 1) + "bye\n")
            client.close()
        took = server.processor() - before
        if took > MOST_OF_POLLS:
            raise Failed("%d polls took %.2f seconds of a processor" % (8 * CALLS, took))
        leaves_little(begun, server.resident(), 8 * CALLS, "polls", LEFT_BY_A_POLL)
        server.halt()


class Crowd:
    """Four connections of each of sixteen tenants, and the answers to each."""

    def __init__(self, server):
        self.server = server
        self.clients, self.answers, self.ticks = {}, {}, 0

    def connect(self):
        """Connects all clients. This may be repeated after `disconnect`."""
        for tenant in range(TENANTS):
            for session in range(SESSIONS):
                client = self.server.client()
                client.ask("hello %s %s" % (name(tenant), key(tenant)), "ok hello")
                self.clients[tenant, session] = client
                self.answers.setdefault((tenant, session), [])

    def send_lines(self, sender, lines, draw):
        """Sends these lines of a session in pieces of random length, and waits for the answers."""
        text, client = "".join(line + "\n" for line in lines).encode(), self.clients[sender]
        while text:
            size = draw.randrange(1, 400)
            client.send(text[:size])
            text = text[size:]
        self.answers[sender] += [client.line() for line in lines if line not in BLANKS]

    def tick(self, frames):
        for frame in frames:
            self.server.ask(tick_of(frame), "ok tick %d" % self.ticks)
            self.server.ask("wait", "ok wait")
            self.ticks += 1

    def send_rounds(self, rounds):
        """Sends the lines of all sessions at once, round by round, with instants after or during the round."""
        with ThreadPoolExecutor(len(self.clients)) as pool:
            for number, made in enumerate(rounds):
                sending = [pool.submit(self.send_lines, sender, lines, random.Random(number)) for sender, lines in made.lines.items()]
                if made.are_during:
                    self.tick(made.frames)
                for it in sending:
                    it.result()
                if not made.are_during:
                    self.tick(made.frames)

    def disconnect(self):
        for client in self.clients.values():
            client.ask("quit", "bye")
            client.close()
        nothing_held(self.server)

    def compare(self, program, path, rounds):
        """Compares the answers of each session with those of a script. Returns how often each kind of answer was received."""
        seen = Counter()
        for tenant in range(TENANTS):
            for session, wanted in enumerate(wanted_of(program, path, rounds, tenant)):
                got = self.answers[tenant, session]
                for number, (one, other) in enumerate(zip(got, wanted)):
                    is_same("session %d of %s, answer %d" % (session, name(tenant), number), one, other)
                is_same("session %d of %s, how many answers" % (session, name(tenant)), len(got), len(wanted))
                seen.update(" ".join(it.split()[:2]) for it in got)
        return seen


def rig_in(folder):
    path = os.path.join(folder, "rig.toml")
    with open(path, "w", encoding="utf-8") as file:
        file.write(configuration())
    # otherwise the server reports that anybody may read it
    os.chmod(path, 0o600)
    return path


def crowd(program):
    """Four sessions of each of sixteen tenants send all kinds of lines at once, also during instants.

    Each tenant gets the answers of a script with its own lines and those of the tenants to which it can be bound."""
    rounds = rounds_of(64, 12, 20)
    with tempfile.TemporaryDirectory() as folder:
        path = rig_in(folder)
        with Server(program, "--config", path) as server:
            suppliers = Crowd(server)
            suppliers.connect()
            suppliers.send_rounds(rounds)
            suppliers.disconnect()
            server.halt()
        seen = suppliers.compare(program, path, rounds)
        is_same("kinds of answers that are missing", [it for it in REPLIES if not seen[it]], [])


def halted_crowd(program):
    """A second halt ends 64 sessions that send lines and don't read all answers, with instants that wait for no job."""
    rounds = rounds_of(65, 1, 200)
    with tempfile.TemporaryDirectory() as folder:
        with Server(program, "--config", rig_in(folder)) as server:
            suppliers = Crowd(server)
            suppliers.connect()
            for made in rounds:
                for sender, lines in made.lines.items():
                    suppliers.clients[sender].send("".join(line + "\n" for line in lines).encode())
                for number in range(5):
                    server.ask("tick 1 2 3", "ok tick %d" % (number + suppliers.ticks))
                suppliers.ticks += 5
            server.say("halt", "halt")
            server.ends()


def long_crowd(program):
    """By hand: the same with 4,000 lines of each session on 64 connections, and again on 64 others. Then as many lines that reach no tenant.

    What is logged is kept until the halt. So a line may take no more memory on the second connections than on the first, and none if it
    isn't logged."""
    rounds = rounds_of(64, LONG_ROUNDS, LONG_LINES)
    unlogged = [Round([], False) for _ in range(LONG_ROUNDS)]
    for made in unlogged:
        made.lines = {(tenant, session): ["fly"] * LONG_LINES for tenant in range(TENANTS) for session in range(SESSIONS)}
    with tempfile.TemporaryDirectory() as folder:
        path = rig_in(folder)
        with Server(program, "--config", path, patience=600) as server:
            suppliers, strangers, sizes = Crowd(server), Crowd(server), []
            for those, their_rounds in ((suppliers, rounds), (suppliers, rounds), (strangers, unlogged)):
                sizes.append(measure(server, those, their_rounds))
            begun = time.monotonic()
            server.halt()
            print("the halt: %.1f s" % (time.monotonic() - begun))
        suppliers.compare(program, path, rounds * 2)
        if sizes[1] > 1.1 * sizes[0] or sizes[2] > 10:
            raise Failed("a line takes more memory on later connections, or takes memory without being logged")


def measure(server, those, rounds):
    """Runs these rounds with a crowd, and prints the time. Returns how many bytes of memory each line took."""
    lines, begun, before = sum(len(it) for made in rounds for it in made.lines.values()), time.monotonic(), server.resident()
    those.connect()
    those.send_rounds(rounds)
    those.disconnect()
    took, grown = time.monotonic() - begun, server.resident() - before
    print("%d lines on 64 connections: %.1f s, %.1f bytes for each line" % (lines, took, grown / lines), flush=True)
    return grown / lines
