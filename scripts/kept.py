"""Computes a tenant's sources, and which events of a list are kept for it, from the definitions.

Events are those of scripts/views.py, oldest first. For the place of each tick, `suppliers` has for each tenant the set of suppliers that
its binds name just before the tick, offered or not.
"""


def sources_of(tenant, events, suppliers):
    """The sources of a tenant as a set, before each event and after the last.

    They are computed backwards from the end, where the tenant is its only source."""
    sources = [{tenant}]
    for at in reversed(range(len(events))):
        added = [suppliers[at][it] for it in sources[-1]] if events[at][0] == "tick" else []
        sources.append(sources[-1].union(*added))
    return sources[::-1]


def tenant_of(event):
    """The tenant of a command or of a completion."""
    return event[1] if event[0] == "own" else event[1][0]


def kept_of(tenant, events, suppliers):
    """The places of the kept events: all ticks, and the commands and completions of tenants that are sources after them."""
    sources = sources_of(tenant, events, suppliers)
    return [at for at, event in enumerate(events) if event[0] == "tick" or tenant_of(event) in sources[at + 1]]


def first_ticks(tenant, events, suppliers):
    """For each other tenant that is a source at some place: the number of the first tick that makes it one.

    If the list ended with that tick, that other tenant would be a source at its beginning."""
    ticks, first = [at for at, event in enumerate(events) if event[0] == "tick"], {}
    for number in range(len(ticks)):
        instants = [("tick",)] * (number + 1)
        for source in sources_of(tenant, instants, [suppliers[at] for at in ticks[:number + 1]])[0] - {tenant}:
            first.setdefault(source, number)
    return first
