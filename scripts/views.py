"""Makes the view of each tenant of a rig from the list of all events.

An event is ("own", tenant, command), ("tick", frame) or ("done", job). A job is (tenant, tick, task), by its release. What is granted at a
tick is read from the one-tenant machines of the suppliers, each of which steps over its own view.
"""

from one_tenant import Instant, Machine


class Views:
    """The views after a growing list of events. `reads` has for each tenant the lines that it may read."""

    def __init__(self, tenancies, reads):
        self.reads = reads
        self.machines = {it.own: Machine(it) for it in tenancies}
        self.views = {it.own: [] for it in tenancies}
        self.completed = set()

    def add(self, event):
        """Adds an event. Returns the reply to a command, from the machine of its tenant, and None for any other event."""
        if event[0] == "own":
            self.views[event[1]].append(event[2])
            return self.machines[event[1]].answer(*event[2])
        if event[0] == "tick":
            self.instant(event[1])
        elif event[1] in self.outstanding(event[1][0]):
            self.completed.add(event[1])
        return None

    def outstanding(self, tenant):
        """The jobs of a tenant's active tasks that have no completion, in the order of their release."""
        jobs = [(tenant, a.tick, a.task.name) for a in self.machines[tenant].active]
        return [job for job in jobs if job not in self.completed]

    def unfinished(self, tenant):
        """The names of a tenant's tasks that are due at the next instant and have no completion."""
        return {a.task.name for a in self.machines[tenant].ending() if (tenant, a.tick, a.task.name) not in self.completed}

    def instant(self, frame):
        """Takes an instant: the first half of each tenant, then what is granted to each, then the second half of each."""
        unfinished = {tenant: self.unfinished(tenant) for tenant in self.machines}
        for tenant, machine in self.machines.items():
            machine.first_half(unfinished[tenant])
        granted = {tenant: self.granted(tenant) for tenant in self.machines}
        for tenant, machine in self.machines.items():
            readings = {k: frame[k] for k in self.reads[tenant]}
            self.views[tenant].append(Instant(readings, unfinished[tenant], granted[tenant]))
            machine.second_half(readings, granted[tenant])

    def granted(self, tenant):
        """The values that are granted through the binds of a tenant, by sensor."""
        passed = {}
        for sensor, supplier, actuator in self.machines[tenant].binds:
            granted = self.machines[supplier].granted(actuator, tenant)
            if granted is not None:
                passed[sensor] = granted
        return passed
