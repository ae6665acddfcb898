"""Checks how the server treats clients that haven't greeted: their time, their number, their guesses of a key, and its notes on keys."""

import os
import tempfile
import time

from served import Failed, Server, becomes, is_same

# How many greetings are refused without a pause, and the pauses after the next ones, in seconds.
FREE = 3
PAUSES = (0.1, 0.2, 0.4, 0.8)
# How much longer a pause may take on a busy machine.
SLACK = 0.6


def is_between(what, least, took, most):
    if not least <= took <= most:
        raise Failed("%s took %.2f seconds, not %.2f to %.2f" % (what, took, least, most))


def late_greetings(program):
    """With --hello-timeout a connection without a greeting is ended, silent or busy. A greeted one stays open, however long it is silent."""
    with Server(program, "--hello-timeout", "1") as server:
        start = time.monotonic()
        greeted, silent, busy = server.client(), server.client(), server.client()
        greeted.ask("hello alpha ka", "ok hello")
        for _ in range(3):
            busy.ask("hello alpha wrong", "err who")
            time.sleep(0.2)
        is_same("what a silent client gets", silent.rest(), "")
        is_between("a silent connection", 0.9, time.monotonic() - start, 1 + SLACK)
        is_same("what a busy client gets", busy.rest(), "")
        is_between("a busy connection", 0.9, time.monotonic() - start, 1 + SLACK)
        time.sleep(0.5)
        greeted.ask("show mode", "ok mode empty")
        greeted.ask("quit", "bye")
        server.halt()


def idle_after_greeting(program):
    """Only --idle limits a greeted session, whatever the time for the greeting was."""
    for hello, idle in ((1, 2), (2, 1)):
        with Server(program, "--hello-timeout", str(hello), "--idle", str(idle)) as server:
            greeted, silent = server.client(), server.client()
            start = time.monotonic()
            greeted.ask("hello alpha ka", "ok hello")
            is_same("what a silent client gets", silent.rest(), "")
            is_between("a silent connection", 0.9, time.monotonic() - start, 1 + SLACK)
            is_same("what a greeted client gets", greeted.rest(), "")
            is_between("an idle session", idle - 0.1, time.monotonic() - start, idle + SLACK)
            server.halt()


def oldest_ungreeted(program):
    """With --ungreeted N the oldest connection without a greeting is ended once there are more than N. Greeted ones aren't counted."""
    with Server(program, "--ungreeted", "2") as server:
        greeted, first = server.client(), server.client()
        greeted.ask("hello alpha ka", "ok hello")
        first.ask("show mode", "err not-greeted")
        threads = server.held()[1]
        second, third = server.client(), server.client()
        is_same("what the oldest gets", first.rest(), "")
        second.ask("hello beta kb", "ok hello")
        # of those without a greeting only the third is left; one whose connection has ended isn't counted either
        becomes("the first is still there", lambda: server.held()[1] == threads + 1)
        fourth = server.client()
        third.ask("show mode", "err not-greeted")
        fourth.ask("quit", "bye")
        is_same("what follows a bye", fourth.rest(), "")
        becomes("the fourth is still there", lambda: server.held()[1] == threads + 1)
        fifth = server.client()
        fifth.ask("show mode", "err not-greeted")
        third.ask("show mode", "err not-greeted")
        sixth = server.client()
        is_same("what the oldest gets", third.rest(), "")
        for client in (fifth, sixth):
            client.ask("hello alpha ka", "ok hello")
        for client in (greeted, second, fifth, sixth):
            client.ask("show mode", "ok mode empty")
            client.ask("quit", "bye")
        server.halt()


def guessed_keys(program):
    """From its fourth `err who` on, a connection waits, twice as long each time. Others don't wait, nor does a greeted session."""
    with Server(program) as server:
        client, other = server.client(), server.client()
        # all lines at once: the replies come one after the other, each before its pause
        client.send(b"hello alpha wrong\n" * (FREE + len(PAUSES)) + b"hello alpha ka\nhello alpha ka\nshow mode\n")
        start, times = time.monotonic(), []
        for _ in range(FREE + len(PAUSES)):
            is_same("a wrong key", client.line(), "err who")
            times.append(time.monotonic() - start)
        other.ask("hello beta kb", "ok hello")
        is_same("the right key", client.line(), "ok hello")
        times.append(time.monotonic() - start)
        is_same("a second greeting", client.line(), "err greeted")
        is_same("a command", client.line(), "ok mode empty")
        for pause, before, after in zip(PAUSES, times[FREE:], times[FREE + 1:]):
            is_between("a pause", pause - 0.02, after - before, pause + SLACK)
        is_between("the free guesses", 0, times[FREE], SLACK)
        client.ask("quit", "bye")
        other.ask("quit", "bye")
        server.halt()


def halted_guesses(program):
    """A second halt ends a session that waits after wrong keys, within its pause, however many lines it has sent."""
    with Server(program) as server:
        client = server.client()
        client.send(b"hello alpha wrong\n" * 200)
        for _ in range(FREE + 2):
            is_same("a wrong key", client.line(), "err who")
        server.say("halt", "halt")
        start = time.monotonic()
        server.ends()
        is_between("the halt", 0, time.monotonic() - start, 2 + SLACK)


# The configuration of one tenant with this key.
RIG = (
    'version = 1\nlines = 1\n[[tenant]]\nname = "alpha"\nkey = "%s"\nreads = [0]\nwrites = [0]\n'
    "bytes = 4096\nports = 64\ntasks = 16\nmodes = 16\nsteps = 10000\ntrace = 8\noffers = 4\nbinds = 4\n"
)


def notes_on_keys(program):
    """At the start, standard error has a note if a key is easy to guess, or if anybody may read the configuration. The server starts all the same."""
    easy = {
        "k": "the key of `alpha` is a single byte: it is easy to guess",
        "hidden": "the key of `alpha` is `hidden`, which `config` writes in place of keys: everybody can greet as `alpha`",
    }
    with tempfile.TemporaryDirectory() as folder:
        path = os.path.join(folder, "rig.toml")
        for key, mode in (("k", 0o600), ("k", 0o604), ("ka", 0o640), ("ka", 0o644), ("hidden", 0o600)):
            with open(path, "w", encoding="utf-8") as file:
                file.write(RIG % key)
            os.chmod(path, mode)
            notes = [path + ": note: every user of this machine can read the keys in it\n"] if mode & 4 else []
            if key in easy:
                notes.append(f"{path}: note: {easy[key]}\n")
            with Server(program, "--config", path) as server:
                client = server.client()
                client.ask("hello alpha %s" % key, "ok hello")
                client.ask("quit", "bye")
                server.say("halt")
                server.ends(error="".join(notes))


CASES = [notes_on_keys, late_greetings, idle_after_greeting, oldest_ungreeted, guessed_keys, halted_guesses]
