"""Makes the lines that sixteen tenants with four sessions each send in rounds, and gets the answers from a script.

All sessions of a tenant send their lines of a round at once. The answers may not depend on the order, so:

- At most one session changes the tenant's program. Then no other one asks for anything that a program shows.
- At most one session changes its offers and binds. Then no other one asks for these.
- The others send lines whose answer is the same in every state.

Instants come between two rounds, or during one. During one, offers and binds have names that no program has, and a program is only changed
by a tenant that doesn't run and to which no tenant is bound. A tenant is only bound to those before it in its group of four. So its answers
are those of a script with its own lines and theirs.
"""

import random
import subprocess

from made_up import ACTUATORS, BUDGETS, SENSORS, program_of

TENANTS = 16
SESSIONS = 4
GROUP = 4
LINES = 3
PROGRAMS = 60
BLANKS = ("", " \t")


def name(tenant):
    return "t%d" % tenant


def key(tenant):
    return "k%d" % tenant


def configuration():
    text = "version = 2\nlines = %d\n" % LINES
    for tenant in range(TENANTS):
        text += '[[tenant]]\nname = "%s"\nkey = "%s"\n' % (name(tenant), key(tenant))
        text += "reads = %s\nwrites = []\n" % list(range(LINES)) + BUDGETS + "trace = 8\noffers = 8\nbinds = 4\n"
        text += "low = %d\nhigh = %d\n" % (-tenant, tenant)
    return text


class Round:
    """The lines of each session, and the frames of the instants during the round (`are_during`) or after it."""

    def __init__(self, frames, are_during):
        self.lines = {}
        self.frames = frames
        self.are_during = are_during


def rounds_of(seed, rounds, lines):
    """A round in which all load, start, offer and bind, and then `rounds` more with `lines` lines of each session.

    Every third one has instants during it."""
    maker, made = LineMaker(seed), []
    for number in range(-1, rounds):
        frames = [[maker.draw.randint(-4, 9) for _ in range(LINES)] for _ in range(maker.draw.randint(1, 3))]
        made.append(Round(frames, number % 3 == 2 and number > 0))
        for tenant in range(TENANTS):
            if number < 0:
                maker.add_first_round(made[-1], tenant)
            else:
                # a tenant whose last line is `stop` doesn't run during the instants of the next round
                maker.add_round(made[-1], tenant, lines, number % 3 == 1 and is_last(tenant))
    return made


class LineMaker:
    """Makes random lines."""

    def __init__(self, seed):
        self.draw = random.Random(seed)
        self.programs = [program_of(self.draw, set(range(LINES))).text() for _ in range(PROGRAMS)]

    def add_first_round(self, made, tenant):
        """Each tenant offers to those after it in its group, and binds to those before it."""
        later = [it for it in range(tenant + 1, tenant - tenant % GROUP + GROUP)]
        earlier = [it for it in range(tenant - tenant % GROUP, tenant)]
        rows = ["offer %s to %s" % (a, name(it)) for it in later for a in ACTUATORS]
        rows += ["bind %s from %s.%s" % (s, name(self.draw.choice(earlier)), self.draw.choice(ACTUATORS)) for s in SENSORS if earlier]
        for session, sent in enumerate([["start", "load " + self.draw.choice(self.programs), "start"], rows, [], []]):
            made.lines[tenant, session] = sent

    def add_round(self, made, tenant, lines, stops):
        """Makes the lines of a tenant's sessions for a round."""
        of_program, of_rows = (self.draw.choice([None, *range(SESSIONS)]) for _ in range(2))
        if stops:
            of_program = 0
        if made.are_during and not is_last(tenant):
            of_program = SESSIONS  # no session has lines about the program
        for session in range(SESSIONS):
            kinds = [self.refused, self.refused]
            if of_program == session:
                kinds += [self.load if made.are_during else self.change] * 4
            if of_program is None:
                kinds += [self.question] * 4
            if of_rows == session:
                kinds += [self.dead_row if made.are_during else self.row] * 4
            if of_rows is None:
                kinds += [lambda _: "rows"]
            sent = [self.draw.choice(kinds)(tenant) for _ in range(lines)]
            if of_program == session and not made.are_during:
                sent[-1] = "stop" if stops else "start"
            made.lines[tenant, session] = sent

    def refused(self, tenant):
        """A line with the same answer in every state of the tenant, or without an answer."""
        own = name(tenant)
        return self.draw.choice(
            ["fly", "show", "quit now", "load", "load start 5;", "replace start m;", "replace sensor", *BLANKS]
            + ["offer a to nobody", "unoffer a to " + own, "bind g from %s.a" % own, "bind g from nobody.a", "offer a"]
            + ["offer a to nobody from 9 to 7", "offer a to %s from 1" % own]
        )

    def question(self, _tenant):
        ports = SENSORS + ACTUATORS + ["o0_0", "T0.i0", "T0.n0"]
        return self.draw.choice(["show mode", "show all", "trace", "show port " + self.draw.choice(ports)])

    def change(self, tenant):
        text = self.draw.choice(self.programs)
        return self.draw.choice(["load " + text, "replace " + text, "start", "start", "start", "stop"] + [self.question(tenant) for _ in range(4)])

    def load(self, tenant):
        return self.draw.choice(["load " + self.draw.choice(self.programs), "stop", "replace " + self.programs[0], self.question(tenant)])

    def row(self, tenant):
        return self.row_of(tenant, self.draw.choice(SENSORS), self.draw.choice(ACTUATORS))

    def dead_row(self, tenant):
        return self.row_of(tenant, self.draw.choice(["x", "xx"]), self.draw.choice(["y", "yy"]))

    def row_of(self, tenant, sensor, actuator):
        """A line about an offer to a tenant after this one in the group, or about a bind to one before it."""
        first = tenant - tenant % GROUP
        consumer = self.draw.choice([it for it in range(first, first + GROUP + 1) if it != tenant]) % TENANTS
        choices = ["rows", "unbind " + sensor] + ["%s %s to %s" % (it, actuator, name(consumer)) for it in ("offer", "offer", "unoffer")]
        choices.append("offer %s to %s from %d to 6" % (actuator, name(consumer), self.draw.randint(-6, 6)))
        if tenant != first:
            choices += ["bind %s from %s.%s" % (sensor, name(self.draw.randrange(first, tenant)), actuator)] * 3
        return self.draw.choice(choices)


def wanted_of(program, path, rounds, tenant):
    """The answers that each session of a tenant has to get, from a script with the lines of all on which its answers can depend."""
    script, asked = [], []
    for made in rounds:
        for other in range(tenant - tenant % GROUP, tenant + 1):
            for session in range(SESSIONS):
                sent = [it for it in made.lines[other, session] if it not in BLANKS]
                script += ["%s %s" % (name(other), it) for it in sent]
                asked += [session] * len(sent) if other == tenant else []
        for frame in made.frames:
            script += [tick_of(frame, "op tick"), "op work"]
    given = "\n".join(script).encode()
    ran = subprocess.run([program, "script", "--config", path], input=given, stdout=subprocess.PIPE, timeout=600, check=True)
    begun = name(tenant) + " "
    replies = [it[len(begun) :] for it in ran.stdout.decode().splitlines() if it.startswith(begun)]
    answers = [[] for _ in range(SESSIONS)]
    for session, reply in zip(asked, replies, strict=True):
        answers[session].append(reply)
    return answers


def is_last(tenant):
    """Whether a tenant is the last of its group. No tenant is bound to it."""
    return tenant % GROUP == GROUP - 1


def tick_of(frame, word="tick"):
    return word + "".join(" %d" % it for it in frame)
