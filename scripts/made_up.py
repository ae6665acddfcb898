"""Makes random rigs, programs, commands and scripts, with the replies to the operator, and gives them to the program."""

import os
import subprocess
import tempfile

from giotto import GREATEST, LEAST, text_of
from one_tenant import WHOLE, Machine, Mode, Program, Refused, Task, Tenancy
from views import Views

NAMES = ["alpha", "beta", "gamma", "delta", "epsilon"]
SENSORS, ACTUATORS = ["s", "g", "h"], ["a", "b"]
BUDGETS = "bytes = 16000\nports = 1024\ntasks = 64\nmodes = 64\nsteps = 1000000\n"
REFUSED = [
    Refused("", "err syntax 0"),
    Refused("start 5;", "err syntax 6"),
    Refused("start m;", "err rule 11"),
    Refused("sensor s := 0 line 63; mode m period 1 { } start m;", "err budget lines"),
]
# Bounds in a configuration of version 1, which the program ignores.
IGNORED = ["", "", "low = 1\nhigh = 2\n", "low = 3\nhigh = 2\n", "low = true\n", 'high = "2"\n']
NOT_NUMBERS = [str(GREATEST + 1), str(LEAST - 1), "+5", "-", "--5", "5x", "1.0", "0x1", "low", "\u0665"]


def expression(chosen, readable):
    """A small expression over these ports."""
    a, b = chosen.choice(readable + [chosen.randint(0, 9)]), chosen.choice(readable + [chosen.randint(1, 5)])
    return (chosen.choice(["+", "-", "*", "<", "%"]), a, b) if chosen.random() < 0.7 else a


def updating(chosen, ports):
    """The value of an update: often just an output, so that the actuator follows it."""
    return chosen.choice(ports) if chosen.random() < 0.5 else expression(chosen, ports)


def condition(chosen, readable):
    return None if chosen.random() < 0.3 else (chosen.choice(["<", ">", "=="]), (("%"), chosen.choice(readable), 3), chosen.randint(0, 2))


def task_of(chosen, k):
    inputs = ["i%d" % n for n in range(chosen.randint(0, 2))]
    states = [("n%d" % n, chosen.randint(-2, 2)) for n in range(chosen.randint(0, 2))]
    outputs = ["o%d_%d" % (k, n) for n in range(chosen.randint(1, 2))]
    readable = inputs + [s for s, _ in states] + [str(o) for o in outputs]
    written = outputs + [s for s, _ in states]
    block = [(x, expression(chosen, readable)) for x in written]
    if chosen.random() < 0.4:
        block.append(("if", ("<", readable[0], 2), [(written[-1], ("+", written[-1], 1))], []))
    return Task("T%d" % k, inputs, outputs, states, block)


def in_any_order(chosen, items):
    return chosen.sample(items, len(items))


def divisors(n):
    return [w for w in range(1, n + 1) if n % w == 0]


def sensors_of(chosen, reads, names):
    """One to three sensors, over lines that the tenant may read and over grants."""
    places = [None] + sorted(reads) * 2
    names = names[:chosen.randint(1, 3)]
    return [(s, chosen.randint(-9, 1), chosen.choice(places) if s == "s" or chosen.random() < 0.2 else None) for s in names]


def invocations_of(chosen, mode, invoked, wanted, readable):
    for t in in_any_order(chosen, invoked):
        arguments = [expression(chosen, readable) for _ in t.inputs]
        guard = condition(chosen, readable) if chosen.random() < 0.3 else None
        mode.invocations.append((mode.period // wanted[t.name], guard, t.name, arguments))


def switches_of(chosen, mode, modes, tasks, sensors):
    def outputs_in(m):
        return [o for _, _, t, _ in m.invocations for u in tasks if u.name == t for o in u.outputs]

    ports = sensors + outputs_in(mode)
    for _ in range(chosen.randint(0, 3)):
        target = chosen.choice(modes)
        given = [(o, expression(chosen, ports)) for o in outputs_in(target) if chosen.random() < 0.4]
        mode.switches.append((chosen.choice(divisors(mode.period)), condition(chosen, ports), target.name, given))


def made_up(chosen, reads, kinds):
    """A program whose modes invoke each task with one period, if they can, so that switches come in mid-round.

    `kinds` has the names of sensors and those of actuators."""
    tasks = [task_of(chosen, k) for k in range(chosen.randint(1, 3))]
    base = chosen.choice([1, 2, 3, 4])
    modes = [Mode("m%d" % k, base * chosen.choice([1, 2, 3, 4, 6])) for k in range(chosen.randint(1, 4))]
    wanted = {t.name: base * chosen.choice([1, 1, 2]) for t in tasks}
    sensors = sensors_of(chosen, reads, kinds[0])
    actuators = [(a, chosen.randint(-5, 5)) for a in (kinds[1] if chosen.random() < 0.8 else kinds[1][1:])]
    outputs = in_any_order(chosen, [(o, chosen.randint(-1, 1)) for t in tasks for o in t.outputs])
    read = [s for s, _, _ in sensors]
    for m in modes:
        invoked = [t for t in tasks if m.period % wanted[t.name] == 0 and chosen.random() < 0.85]
        ports = [o for t in invoked for o in t.outputs]
        invocations_of(chosen, m, invoked, wanted, read + ports)
        for actuator, _ in in_any_order(chosen, actuators):
            if ports and chosen.random() < 0.8:
                guard = condition(chosen, ports) if chosen.random() < 0.5 else None
                m.updates.append((chosen.choice(divisors(m.period) + [m.period] * 2), guard, actuator, updating(chosen, ports)))
    for m in modes:
        switches_of(chosen, m, modes, tasks, read)
    return Program(sensors, actuators, outputs, tasks, modes)


def program_of(chosen, reads, kinds=(SENSORS, ACTUATORS)):
    program = made_up(chosen, reads, kinds)
    while not program.keeps_tasks():
        program = made_up(chosen, reads, kinds)
    return program


def replacement_of(chosen, reads):
    """A program for a running tenant. Often its sensors and actuators keep their names.

    Sometimes an actuator has the name of a sensor or the other way round, and sometimes the text is refused."""
    what = chosen.random()
    if what < 0.15:
        return chosen.choice(REFUSED)
    return program_of(chosen, reads, (["s", "b", "a"], ["h", "g"]) if what < 0.3 else (SENSORS, ACTUATORS))


def bounds_of(chosen):
    """A least and a greatest value, mostly near those that programs compute. Sometimes one or both are ends of the whole range."""
    low = chosen.randint(-6, 9)
    high = low + chosen.choice([0, 1, 3, 10])
    return chosen.choice([(low, high)] * 5 + [(LEAST, high), (low, GREATEST), WHOLE])


class Rig:
    """Two to five tenants over one to three lines, which have bounds for their offers or have none."""

    def __init__(self, chosen, least=2):
        self.lines, self.version = chosen.randint(1, 3), chosen.choice([1, 2])
        roster = NAMES[:chosen.randint(least, 5)]
        self.tenancies = [
            Tenancy(
                own, roster, chosen.randint(1, 5), chosen.randint(1, 4), chosen.choice([1, 2, 3, 8, 30, 4096]),
                bounds_of(chosen) if self.version == 2 else WHOLE)
            for own in roster
        ]
        self.reads = {own: {k for k in range(self.lines) if chosen.random() < 0.7} for own in roster}
        self.bounds = {
            it.own: "low = %d\nhigh = %d\n" % it.bounds if self.version == 2 else chosen.choice(IGNORED) for it in self.tenancies}

    def configuration(self):
        text = "version = %d\nlines = %d\n" % (self.version, self.lines)
        for it in self.tenancies:
            text += '[[tenant]]\nname = "%s"\nkey = "k"\nreads = %s\nwrites = []\n' % (it.own, sorted(self.reads[it.own]))
            text += BUDGETS + "trace = %d\noffers = %d\nbinds = %d\n" % (it.trace, it.offers, it.binds) + self.bounds[it.own]
        return text


def spelled(chosen, number):
    """A spelling of a number, sometimes with leading zeros."""
    sign = "-" if number < 0 or number == 0 and chosen.random() < 0.2 else ""
    return sign + "0" * chosen.choice([0, 0, 0, 1, 20]) + str(abs(number))


def bounding(chosen):
    """The words for bounds, which come after the tenant of an offer."""
    low, high = bounds_of(chosen)
    return ["from", spelled(chosen, low), "to", spelled(chosen, high)]


def offer_of(chosen, actuator, tenant):
    """An offer with bounds or without."""
    return ("offer", actuator, tenant, *(bounding(chosen) if chosen.random() < 0.6 else []))


def bad_offer_of(chosen, actuator, tenant):
    """An offer with a slip in its bounds: they are exchanged, a number or a word is replaced, or a word is missing or added."""
    words, at, slip = bounding(chosen), chosen.randrange(4), chosen.choice(["exchanged", "other", "missing", "more"])
    if slip == "exchanged":
        words[1::2] = str(chosen.randint(3, 9)), spelled(chosen, chosen.randint(-9, 2))
    elif slip == "other":
        words[at] = chosen.choice(NOT_NUMBERS) if at % 2 else chosen.choice(["To", "From", "till", words[2 - at]])
    elif slip == "missing":
        del words[at:chosen.choice([at + 1, 4]) if at else 1]
    else:
        words.insert(at + 1, chosen.choice(["from", "to", "5"]))
    return ("offer", actuator, tenant, *words)


def line_of(command):
    """The line that spells a command."""
    word, parts = command[0], command[1:]
    if word in ("offer", "unoffer"):
        return " ".join([word, parts[0], "to", *parts[1:]])
    if word == "bind":
        return "bind %s from %s.%s" % parts
    return " ".join([word.replace("_", " ")] + [it if isinstance(it, str) else it.text() for it in parts])


class Script:
    """Lines, each with its events, and with its reply if it is the operator's. A tenant's replies come from its machine."""

    def __init__(self, rig):
        self.rig, self.views, self.lines, self.replies, self.ticks = rig, Views(rig.tenancies, rig.reads), [], [], 0
        self.events = []

    def add(self, name, line, events, reply=None):
        self.lines.append("%s %s" % (name, line))
        self.replies.append((name, reply))
        self.events.append(events)
        return [self.views.add(event) for event in events]

    def command(self, tenant, *command):
        return self.add(tenant, line_of(command), [("own", tenant, command)])[0]

    def tick(self, frame):
        self.add("op", "tick " + " ".join(map(str, frame)), [("tick", frame)], "ok tick %d" % self.ticks)
        self.ticks += 1

    def work(self, tenants, line):
        jobs = [("done", job) for tenant in tenants for job in self.views.outstanding(tenant)]
        self.add("op", line, jobs, "ok work %d" % len(jobs))

    def wanted(self):
        """All replies: each tenant's are those of a new machine over the tenant's view."""
        answers = {it.own: iter(Machine(it).answers_to(self.views.views[it.own])) for it in self.rig.tenancies}
        return ["%s %s" % (name, reply if name == "op" else next(answers[name])) for name, reply in self.replies]


def row_about(chosen, roster, own):
    """A command about an offer or a bind that may exist or not, or an offer with a slip in its bounds."""
    others = [it for it in roster if it != own]
    tenant = chosen.choice(others) if chosen.random() < 0.9 else chosen.choice([own, "nobody"])
    sensor, actuator = chosen.choice(SENSORS + ["x"]), chosen.choice(ACTUATORS * 2 + ["y"])
    return chosen.choice([
        offer_of(chosen, actuator, tenant), offer_of(chosen, actuator, tenant), bad_offer_of(chosen, actuator, tenant),
        ("unoffer", actuator, tenant), ("bind", sensor, tenant, actuator), ("bind", sensor, tenant, actuator), ("unbind", sensor),
        ("rows",),
    ])


def command_of(chosen, script, tenant, replaces, row=row_about):
    """A command for a tenant in its present state. `row` makes those about offers and binds."""
    machine = script.views.machines[tenant]
    ports = list(machine.all_ports()) if machine.program else []
    shown = [("show_mode",), ("show_all",), ("show_port", chosen.choice(ports + ["x"])), ("trace",)]
    what = chosen.random()
    if replaces and chosen.random() < (0.25 if machine.state == "running" else 0.05):
        return ("replace", replacement_of(chosen, script.rig.reads[tenant]))
    if machine.state != "running" and what < 0.6:
        return ("start",)
    if what < 0.08:
        return chosen.choice([("stop",), ("load", program_of(chosen, script.rig.reads[tenant])), ("start",)])
    if what < 0.4:
        return row(chosen, machine.tenancy.roster, tenant)
    return chosen.choice(shown)


def output_of(program, rig, lines, *words):
    """The lines that a subcommand of the program prints for a script on this rig."""
    with tempfile.TemporaryDirectory() as folder:
        path = os.path.join(folder, "rig.toml")
        with open(path, "w", encoding="utf-8") as file:
            file.write(rig.configuration())
        text = "".join(line + "\n" for line in lines)
        words = [program, words[0], "--config", path, *words[1:]]
        return subprocess.run(words, input=text, capture_output=True, text=True, timeout=600).stdout.splitlines()


def replies_of(program, script):
    """The program's replies to a script on its rig."""
    return output_of(program, script.rig, script.lines, "script")
