"""The plant, a room that a heater warms, closes the loop: it is the operator of the rig, and gives an instant for each of its steps."""

import sys

from rig import Server, Session

with Server(*sys.argv[1:]) as rig, Session(rig.port, "alpha", "ka") as alpha:
    alpha.load("heater.giotto")
    alpha.must("start")
    room = 150  # tenths of a degree, as outside
    print("instant      room   heater")
    for _ in range(40):
        instant = rig.must("tick %d" % room).split()[2]
        rig.must("wait")
        power = int(rig.must("lines").split()[2])
        print("%7s %9.1f %6d %%" % (instant, room / 10, power))
        room += power // 10 - (room - 150) // 20
    print(alpha.ask("show mode"))
print(rig.closed)
