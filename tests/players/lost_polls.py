"""The closed loop of the examples with one slave, while a foreign token takes the master's own away amid a poll, time and again.

    python3 lost_polls.py FOLDER

FOLDER has closed_loop.py. Prints its lines. Status 1 if no poll was lost, or polls end with one.
"""

import sys

sys.path.insert(0, sys.argv[1])

import closed_loop
from pbfdl import Phase, Telegram

UNTIL = 1_000_000
# From one foreign token to the next, in bit times.
PERIOD = 200_000
FOREIGN = bytes(Telegram.token(da=2, sa=0))


class Wire(closed_loop.Wire):
    lost = 0

    def step(self, now):
        master = self.nodes[0]
        if self.end is None and master.station.phase == Phase.AWAIT_DATA and now > PERIOD * (Wire.lost + 1):
            Wire.lost += 1
            Wire.before = master.controllers[master.asked].polls
            self.send(None, FOREIGN, now)
        else:
            super().step(now)
        Wire.after = master.controllers[master.asked].polls


closed_loop.TARGETS = {9: 500}
closed_loop.Wire = Wire
closed_loop.main(UNTIL)
sys.exit(not (Wire.lost > 2 and Wire.before < Wire.after))
