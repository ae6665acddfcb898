"""The plant, a tank: it is the operator of a rig, runs `rig_host script` with one of hydra's two controllers, and prints the script that it gave."""

import subprocess
import sys

TICKS = 16
OPEN = {"old": "d", "new": "d + 10"}
LOADS = [
    "hydra load sensor demand := 0 line 2; actuator valve := 40 line 3; output open := 40;"
    " task control(d) output open { open := %s; }"
    " mode fill period 1 { actfreq 1 do valve := open; taskfreq 1 do control(demand); } start fill;",
    "thermo load sensor flow := 0 grant; sensor temperature := 20 line 1; actuator power := 0 line 4; output wanted := 0;"
    " task control(f, t) output wanted { wanted := (f + 30) - t; }"
    " mode heat period 1 { actfreq 1 do power := wanted; taskfreq 1 do control(flow, temperature); } start heat;",
    "guard load sensor level := 0 line 0; actuator horn := 0 line 5; output alarm := 0;"
    " task watch(l) output alarm { alarm := l > 62; }"
    " mode watching period 1 { actfreq 1 do horn := alarm; taskfreq 1 do watch(level); } start watching;",
    "logger load sensor seen := 0 grant; mode show period 1 { } start show;",
]
ROWS = ["hydra offer valve to thermo", "thermo bind flow from hydra.valve", "thermo offer power to logger", "logger bind seen from thermo.power"]

program, controller = sys.argv[1:]
rig = subprocess.Popen([program, "script", "--config", "rig.toml"], stdin=subprocess.PIPE, stdout=subprocess.PIPE, encoding="utf-8")


def give(line):
    """Gives the rig a line, prints it, and returns the words of the reply."""
    print(line)
    print(line, file=rig.stdin, flush=True)
    return rig.stdout.readline().split()


for line in [LOADS[0] % OPEN[controller], *LOADS[1:], *ROWS, "hydra start", "thermo start", "guard start", "logger start"]:
    give(line)
level, temperature = 50, 20
for _ in range(TICKS):
    valve, power = map(int, give("op lines")[6:8])
    level += (valve - 40) // 5
    temperature = 20 + power // 10
    give("op tick %d %d 40 0 0 0" % (level, temperature))
    give("op work")
    give("guard show port alarm")
give("thermo show all")
give("logger show all")
rig.stdin.close()
