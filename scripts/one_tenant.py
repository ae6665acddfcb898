"""Runs a Giotto machine of one tenant over the tenant's own view. The machine knows nothing else.

A view is a list of entries, oldest first: a command of the tenant, as a tuple of its word and its parts, or an `Instant`. The
program of a load or a replace is a `Program`, or a text that is `Refused`.
"""

import math
import re
from collections import namedtuple

from giotto import GREATEST, LEAST, block_text, run, text_of, value

# The values of the lines that the tenant may read, the names of its due tasks without a completion, and the value that is granted
# through each of its binds, by the bind's sensor. A bind through which nothing is granted has no entry.
Instant = namedtuple("Instant", "readings unfinished granted")

# What a tenant knows of the rig: its name, the names of all tenants, how many offers and binds it may have, how many records its
# trace keeps, and the least and the greatest value of an offer without bounds.
Tenancy = namedtuple("Tenancy", "own roster offers binds trace bounds")

# The bounds of all values.
WHOLE = LEAST, GREATEST

NUMBER = re.compile("-?[0-9]+")


def bounds_in(words):
    """The least and the greatest value in the words after the tenant of an offer, or None if these aren't bounds."""
    if len(words) != 4 or words[::2] != ("from", "to") or not all(NUMBER.fullmatch(it) for it in words[1::2]):
        return None
    low, high = map(int, words[1::2])
    return (low, high) if LEAST <= low <= high <= GREATEST else None


class Refused:
    """A text that is refused for every tenant.

    A fault of the text itself is reported before anything else. A budget is reported only if the tenant may load or replace now."""

    def __init__(self, words, reply):
        self.words, self.reply = words, reply

    def text(self):
        return self.words

    def is_over_budget(self):
        return self.reply.startswith("err budget")


class Task:
    def __init__(self, name, inputs, outputs, states, block):
        self.name, self.inputs, self.outputs, self.states, self.block = name, inputs, outputs, states, block

    def text(self):
        outputs = " output " + ", ".join(self.outputs) if self.outputs else ""
        states = " state " + ", ".join("%s := %d" % it for it in self.states) if self.states else ""
        return "task %s(%s)%s%s %s" % (self.name, ", ".join(self.inputs), outputs, states, block_text(self.block))


class Mode:
    """Updates are (frequency, guard, actuator, value), switches (frequency, guard, target, destinations), and invocations
    (frequency, guard, task, arguments), each in text order; a guard may be None."""

    def __init__(self, name, period):
        self.name, self.period, self.updates, self.switches, self.invocations = name, period, [], [], []

    def text(self):
        def condition(guard):
            return "" if guard is None else " if " + text_of(guard)

        lines = ["actfreq %d%s do %s := %s;" % (w, condition(g), a, text_of(e)) for w, g, a, e in self.updates]
        for w, g, target, given in self.switches:
            block = " { %s }" % " ".join("%s := %s;" % (o, text_of(e)) for o, e in given) if given else ""
            lines.append("exitfreq %d%s do %s%s;" % (w, condition(g), target, block))
        lines += ["taskfreq %d%s do %s(%s);" % (w, condition(g), t, ", ".join(map(text_of, es))) for w, g, t, es in self.invocations]
        return "mode %s period %d { %s }" % (self.name, self.period, " ".join(lines))

    def period_of(self, task):
        return next((self.period // w for w, _, t, _ in self.invocations if t == task), None)


class Program:
    """Sensors are (name, initial value, rig line). The line is None if the sensor takes what is granted."""

    def __init__(self, sensors, actuators, outputs, tasks, modes):
        self.sensors, self.actuators, self.outputs = sensors, actuators, outputs
        self.tasks = {t.name: t for t in tasks}
        self.modes = {m.name: m for m in modes}
        self.start = modes[0].name

    def text(self):
        parts = ["sensor %s := %d %s;" % (s, z, "grant" if line is None else "line %d" % line) for s, z, line in self.sensors]
        parts += ["actuator %s := %d;" % it for it in self.actuators]
        parts += ["output %s := %d;" % it for it in self.outputs]
        parts += [t.text() for t in self.tasks.values()] + [m.text() for m in self.modes.values()]
        return " ".join(parts) + " start %s;" % self.start

    def drivers_ports(self):
        return dict([(s, z) for s, z, _ in self.sensors] + self.actuators + self.outputs)

    def sensor_names(self):
        return [s for s, _, _ in self.sensors]

    def actuator_names(self):
        return [a for a, _ in self.actuators]

    def keeps_tasks(self):
        """Whether each switch finds each task ended, or goes to a mode that invokes it with the same period."""
        return all(
            (m.period // w) % m.period_of(t) == 0 or self.modes[target].period_of(t) == m.period_of(t)
            for m in self.modes.values() for w, _, target, _ in m.switches for _, _, t, _ in m.invocations)


class Release:
    def __init__(self, task, tick, inputs, states):
        self.task, self.tick, self.inputs, self.states = task, tick, inputs, states

    def result(self):
        ports = {**dict(zip(self.task.inputs, self.inputs)), **self.states, **{o: 0 for o in self.task.outputs}}
        run(self.task.block, ports)
        return ports


class Machine:
    """The machine of one tenant. It begins empty, before the first instant."""

    def __init__(self, tenancy):
        self.tenancy, self.offers, self.binds, self.ticks, self.records = tenancy, {}, [], 0, []
        self.program, self.waiting, self.state, self.active = None, None, "empty", []

    def answers_to(self, view):
        """The replies to the commands of a view."""
        replies = []
        for entry in view:
            if isinstance(entry, Instant):
                self.first_half(entry.unfinished)
                self.second_half(entry.readings, entry.granted)
            else:
                replies.append(self.answer(*entry))
        return replies

    def note(self, happening):
        """Adds a record. Its number is that of the running instant, or of the next one if no instant is running."""
        self.records.append("%d:%s" % (self.ticks, happening))

    def begin(self, state):
        p = self.program
        self.state, self.mode, self.time, self.active = state, p.modes[p.start], 0, []
        self.ports = p.drivers_ports()
        self.inputs = {t.name: {i: 0 for i in t.inputs} for t in p.tasks.values()}
        self.states = {t.name: dict(t.states) for t in p.tasks.values()}

    def halt(self, reason):
        self.state, self.active, self.waiting = "stopped " + reason, [], None
        self.ports.update(self.program.actuators)
        self.note("stop:" + reason.replace(" ", ":"))

    def holds(self, guard):
        return guard is None or value(guard, self.ports) != 0

    def due(self, frequency):
        return self.time % (self.mode.period // frequency) == 0

    def ending(self):
        """The releases that end at the next instant, in the order of the mode's lines."""
        if self.state != "running":
            return []
        return [a for w, _, t, _ in self.mode.invocations if self.due(w) for a in self.active if a.task.name == t]

    def granted(self, actuator, tenant):
        """The value of an actuator that is granted to a tenant, limited to the bounds of the offer.

        None if the actuator isn't offered, or doesn't exist."""
        if (actuator, tenant) not in self.offers or self.program is None or actuator not in self.program.actuator_names():
            return None
        low, high = self.offers[actuator, tenant]
        return max(low, min(high, self.ports[actuator]))

    def first_half(self, unfinished):
        if self.state != "running":
            return
        ending = self.ending()
        late = [a for a in ending if a.task.name in unfinished]
        if late:
            self.halt("overrun " + late[0].task.name)
            return
        for a in ending:
            result = a.result()
            self.states[a.task.name] = {s: result[s] for s, _ in a.task.states}
            for o in a.task.outputs:
                self.ports[o] = result[o]
                self.note("out:%s:%d" % (o, result[o]))
        self.active = [a for a in self.active if a not in ending]
        for w, guard, actuator, e in self.mode.updates:
            if self.due(w) and self.holds(guard):
                self.ports[actuator] = value(e, self.ports)
                self.note("act:%s:%d" % (actuator, self.ports[actuator]))

    def install(self):
        """Replaces the running program by the waiting one. No task is active: at mode time 0 each has ended."""
        old, kept = self.program, self.ports
        self.program, self.waiting = self.waiting, None
        self.begin("running")
        for of_old, of_new in [(old.sensor_names(), self.program.sensor_names()), (old.actuator_names(), self.program.actuator_names())]:
            self.ports.update({name: kept[name] for name in of_new if name in of_old})
        self.note("replaced:" + self.mode.name)

    def second_half(self, readings, granted):
        if self.state == "running":
            if self.waiting is not None and self.time == 0:
                self.install()
            for s, initial, line in self.program.sensors:
                self.ports[s] = granted.get(s, initial) if line is None else readings[line]
            self.take_switch()
            self.invoke()
            self.time = (self.time + 1) % self.mode.period
        self.ticks += 1

    def take_switch(self):
        for w, guard, target, given in self.mode.switches:
            if self.due(w) and self.holds(guard):
                self.ports.update({o: z for o, z in [(o, value(e, self.ports)) for o, e in given]})
                target = self.program.modes[target]
                common = math.lcm(*[self.mode.period_of(a.task.name) for a in self.active])
                self.time = target.period - (common - self.time % common) if self.active else 0
                self.mode = target
                self.note("mode:" + target.name)
                return

    def invoke(self):
        for w, guard, name, arguments in self.mode.invocations:
            if self.due(w) and self.holds(guard):
                task, given = self.program.tasks[name], [value(e, self.ports) for e in arguments]
                self.inputs[name] = dict(zip(task.inputs, given))
                self.active.append(Release(task, self.ticks, given, dict(self.states[name])))

    def answer(self, word, *parts):
        return getattr(self, word)(*parts)

    def refused(self, program, misplaced):
        """Why a text is refused, or None. `misplaced` is why the tenant may not load or replace now, or None."""
        if isinstance(program, Refused) and not (misplaced and program.is_over_budget()):
            return program.reply
        return misplaced

    def load(self, program):
        wrong = self.refused(program, "err running" if self.state == "running" else None)
        if wrong:
            return wrong
        self.program = program
        self.begin("loaded")
        return "ok load"

    def replace(self, program):
        wrong = self.refused(program, "err not-running" if self.state != "running" else None)
        if wrong:
            return wrong
        self.waiting = program
        return "ok replace"

    def start(self):
        if self.state == "running":
            return "err running"
        if self.state == "empty":
            return "err not-loaded"
        self.begin("running")
        self.note("start:" + self.mode.name)
        return "ok start"

    def stop(self):
        if self.state != "running":
            return "err not-running"
        self.halt("asked")
        return "ok stop"

    def all_ports(self):
        """Each port by its printed name, in the order in which they are shown."""
        shown = dict(self.ports)
        for name in self.program.tasks:
            shown.update({"%s.%s" % (name, x): z for x, z in {**self.inputs[name], **self.states[name]}.items()})
        return shown

    def show_mode(self):
        more = {"loaded": [self.mode.name], "running": [self.mode.name, str(self.time)]} if self.program else {}
        return " ".join(["ok mode", self.state] + more.get(self.state, []))

    def show_port(self, port):
        if self.state == "empty":
            return "err not-loaded"
        shown = self.all_ports()
        return "ok port %s %d" % (port, shown[port]) if port in shown else "err no-port"

    def show_all(self):
        if self.state == "empty":
            return "err not-loaded"
        return "ok all" + "".join(" %s=%d" % it for it in self.all_ports().items())

    def trace(self):
        """The last records, as many as the tenant may keep, oldest first."""
        return "ok trace" + "".join(" " + it for it in self.records[-self.tenancy.trace:])

    def refused_tenant(self, tenant):
        """Why an offer or a bind may not name this tenant, or None."""
        if tenant not in self.tenancy.roster:
            return "err no-tenant"
        return "err own" if tenant == self.tenancy.own else None

    def offer(self, actuator, tenant, *words):
        """Makes an offer with the bounds in these words or, without words, with the tenant's own bounds."""
        bounds = bounds_in(words) if words else self.tenancy.bounds
        wrong = "err bad-command" if bounds is None else self.refused_tenant(tenant)
        if wrong:
            return wrong
        if (actuator, tenant) in self.offers:
            return "err twice"
        if len(self.offers) >= self.tenancy.offers:
            return "err budget offers"
        self.offers[actuator, tenant] = bounds
        return "ok offer"

    def unoffer(self, actuator, tenant):
        wrong = self.refused_tenant(tenant)
        if wrong:
            return wrong
        if (actuator, tenant) not in self.offers:
            return "err not-there"
        del self.offers[actuator, tenant]
        return "ok unoffer"

    def bind(self, sensor, tenant, actuator):
        wrong = self.refused_tenant(tenant)
        if wrong:
            return wrong
        if sensor in [s for s, _, _ in self.binds]:
            return "err twice"
        if len(self.binds) >= self.tenancy.binds:
            return "err budget binds"
        self.binds.append((sensor, tenant, actuator))
        return "ok bind"

    def unbind(self, sensor):
        if sensor not in [s for s, _, _ in self.binds]:
            return "err not-there"
        self.binds = [it for it in self.binds if it[0] != sensor]
        return "ok unbind"

    def rows(self):
        offers = [" offer:%s:%s" % it + ("" if bounds == WHOLE else ":%d:%d" % bounds) for it, bounds in self.offers.items()]
        return "ok rows" + "".join(offers + [" bind:%s:%s:%s" % it for it in self.binds])
