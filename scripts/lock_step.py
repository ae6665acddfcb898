"""Runs a server under the library of refusals.py, with two tenants and an operator whose lines are answered one by one."""

import refusals
from served import PATIENCE, Failed, Server, is_same

ADDER = (
    "sensor s := 0 line 0; actuator a := 0; output o := 0; task T(i) output o { o := i + 1; } "
    "mode m period 2 { actfreq 1 do a := o; taskfreq 1 do T(s); } start m;"
)
LISTENER = "sensor g := -1 grant; actuator b := 3; mode n period 1 { actfreq 1 do b := 4; } start n;"
LINES = [
    ("alpha", "load " + ADDER), ("beta", "load " + LISTENER), ("alpha", "load start"), ("alpha", "offer a to beta"), ("beta", "bind g from alpha.a"),
    ("alpha", "start"), ("beta", "start"), ("op", "tick 5"), ("op", "wait"), ("op", "lines"), ("op", "tick 7"), ("op", "wait"),
    ("alpha", "show port a"), ("alpha", "replace " + LISTENER), ("op", "tick 9"), ("op", "wait"), ("op", "tick 11"), ("op", "wait"),
    ("alpha", "show mode"), ("alpha", "show all"), ("alpha", "rows"), ("alpha", "trace"), ("beta", "show mode"), ("beta", "show all"),
    ("beta", "rows"), ("beta", "trace"), ("alpha", "quit"), ("beta", "quit"),
]
# The answer to a line that was carried out before, if it differs from the first answer.
AGAIN = {"start": "err running", "offer a to beta": "err twice", "bind g from alpha.a": "err twice"}
ENDED = ("bye close ok", 0, b"")


class Silent(Failed):
    """The operator gets no more answers."""


class ServerUnderLibrary(Server):
    """A server under the library, with these variables in its environment."""

    def __init__(self, library, program, **words):
        super().__init__(program, "--workers", "1", variables={"LD_PRELOAD": library, **words})
        self.patience = 1

    def answer_to(self, line):
        """The answer to a line of the operator. The line is given again if the server is out of memory."""
        for _try in range(2):
            self.say(line)
            try:
                answer = self.line()
            except Failed:
                raise Silent(line) from None
            if answer != "err memory":
                break
        return answer

    def ended(self):
        """Waits for the end. Returns the last line, the status and standard error, and then the numbers from the library."""
        self.patience = PATIENCE
        last, status, error = self.line(), self.process.wait(PATIENCE), self.process.stderr.read()
        error, *numbers = refusals.without(error)
        return (last, status, error), numbers


class Tenant:
    """A tenant's session, which is opened again if it was ended."""

    def __init__(self, server, name):
        self.server, self.greeting = server, "hello %s k%s" % (name, name[0])
        self.connect()

    def connect(self):
        for _try in range(2):
            self.client = self.server.client()
            if self.answer_to(self.greeting, again=False) == "ok hello":
                return
        raise Failed("no answer to %s" % self.greeting)

    def answer_to(self, line, again=True, times=2):
        """The answer to a line. The line is given again if the server is out of memory, or if the session ended without an answer."""
        for _try in range(times):
            try:
                self.client.send(line.encode() + b"\n")
                answer = self.client.line()
            except OSError:
                answer = ""
            if self.client.is_cut:
                answer = ""
            if answer not in ("err memory", ""):
                break
            if answer == "" and again:
                self.connect()
        return answer


def lock_step(library, program, **words):
    """Returns the last answer to each line, how the server ended, and the numbers from the library.

    If the operator gets no more answers, the list ends there."""
    answers, tenants = [], {}
    with ServerUnderLibrary(library, program, **words) as server:
        try:
            for name in ("alpha", "beta"):
                tenants[name] = Tenant(server, name)
            for name, line in LINES:
                answers.append((tenants.get(name) or server).answer_to(line))
            server.say("halt")
        except Silent:
            for tenant in tenants.values():
                tenant.client.close()
        return answers, *server.ended()


def without_faults(library, program, **words):
    """Returns the answer to each line if nothing fails, and the numbers from the library."""
    answers, ended, numbers = lock_step(library, program, **words)
    is_same("the end", ended, ENDED)
    return answers, numbers


def odd_answers(answers, wanted, is_carried_out_again=True):
    """The lines with a wrong answer, each with that answer and the right one."""
    again = AGAIN if is_carried_out_again else {}
    return [(line, answer, right) for (_, line), answer, right in zip(LINES, answers, wanted) if answer not in (right, again.get(line))]
