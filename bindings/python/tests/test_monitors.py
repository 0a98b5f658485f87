"""The class of a monitor: what it says, what it counts, and what it refuses.

    python3 -m unittest discover tests
"""

import csv
import ctypes
import io
import json
import threading
import unittest

import pbfdl
from pbfdl import AlarmClass, Form, Monitor, Params, Role, Spread, Summary, _library

NUMBERS = dict(tsl=100, tid1=37, tid2=60, tsdr=11, lag=0, ttr=10_000, gap=10, hsa=5, retries=1)
PARAMS = Params(**NUMBERS)
RING = b"800 833 dc0101\n870 903 dc0101\n940 1006 100201494c16\n1017 1083 100102202316\n1120 1153 dc0201\n"
SAID = """\
800 833 token da=1 sa=1 | token to itself | holder 1
870 903 token da=1 sa=1 | token to itself | holder 1
940 1006 short da=2 sa=1 fc=49 | FDL status request | holder 1
1017 1083 short da=1 sa=2 fc=20 | reply: OK, master ready | holder 1
1120 1153 token da=2 sa=1 | token to 2 | offered to 2
"""
# Far more than a call makes.
MOST_ALLOCATIONS = 1000


class Monitors(unittest.TestCase):
    def test_each_cut_of_a_capture_is_said_alike(self):
        for step in (1, 7, len(RING)):
            with Monitor(PARAMS) as monitor:
                said = [monitor.feed(RING[at : at + step]) for at in range(0, len(RING), step)]
                self.assertEqual("".join(said), SAID)
                self.assertTrue(monitor.finish().startswith("bus: bursts 5, from 800 to 1153"))
                self.assertFalse(monitor.is_refused)

    def test_a_long_text_comes_whole(self):
        with Monitor(PARAMS) as monitor:
            self.assertEqual(monitor.feed(RING[:15] + b"x\n" * 5000).count("\n"), 5001)
            self.assertEqual(monitor.traffic.refused, 5000)

    def test_counts(self):
        with Monitor(PARAMS) as monitor:
            self.assertEqual((monitor.traffic.first, monitor.station(1).last_heard), (None, None))
            monitor.feed(RING)
            traffic, station = monitor.traffic, monitor.station(1)
            self.assertEqual((traffic.first, traffic.last, traffic.bursts, traffic.alarms), (800, 1153, 5, 0))
            self.assertEqual((station.role, station.tokens, station.polls, station.last_heard), (Role.IN_RING, 3, 1, 1153))
            self.assertEqual((monitor.station(2).role, monitor.station(2).replying), (Role.READY, Spread(1, 11, 11, 11)))
            self.assertEqual(monitor.station(126).telegrams, 0)
            self.assertEqual(repr(monitor), "<Monitor, 5 bursts>")

    def test_alarms_by_class(self):
        wrong = b"800 833 dc0101\n870 903 dc0201\n920 953 dc0103\n"
        for classes, alarms in ((AlarmClass, 1), ([], 0), ([AlarmClass.LEGALITY], 1), ([AlarmClass.TIMING], 0)):
            with Monitor(PARAMS, classes=classes) as monitor:
                said = monitor.feed(wrong)
                self.assertEqual((monitor.traffic.alarms, monitor.is_refused), (alarms, bool(alarms)))
                self.assertEqual("alarm at 920 by 3: SpokeOutOfTurn" in said, bool(alarms))
        with Monitor() as monitor:
            monitor.feed(wrong)
            self.assertFalse(monitor.is_refused)

    def test_forms(self):
        with Monitor(form=Form.RAW) as monitor:
            self.assertEqual(monitor.feed(bytes.fromhex("dc0201")), "0 token da=2 sa=1 | token to 2\n")
        with Monitor(form=Form.PCAP, baud=500_000, every=100, slack=1) as monitor:
            monitor.feed(b"what")
            monitor.finish()
            self.assertTrue(monitor.is_refused)
        with Monitor(PARAMS, summary=Summary.JSON) as monitor:
            self.assertEqual(monitor.feed(RING), "")
            self.assertEqual(json.loads(monitor.finish())["bursts"], 5)
        with Monitor(PARAMS, summary=Summary.CSV) as monitor:
            monitor.feed(RING)
            self.assertEqual(next(csv.DictReader(io.StringIO(monitor.finish())))["tokens"], "3")

    def test_what_is_refused(self):
        for given in (dict(form=3), dict(summary=4)):
            with self.assertRaises(pbfdl.BadForm):
                Monitor(**given)
        for given in (dict(form=-1), dict(slack=2**32), dict(every=2**64), dict(classes=["none"])):
            with self.assertRaises(ValueError):
                Monitor(**given)
        monitor = Monitor()
        with self.assertRaises(pbfdl.BadStation):
            monitor.station(127)
        with self.assertRaises(TypeError):
            monitor.feed(3)
        monitor.finish()
        for call in (monitor.finish, lambda: monitor.feed(b"")):
            with self.assertRaises(pbfdl.Finished):
                call()
        monitor.close()
        monitor.close()
        self.assertEqual(repr(monitor), "<Monitor, closed>")
        for call in (monitor.finish, lambda: monitor.is_refused, lambda: monitor.traffic, lambda: monitor.station(1)):
            with self.assertRaises(pbfdl.NoMonitor):
                call()

    def test_it_stays_on_its_thread(self):
        found = []

        def calls(monitor):
            try:
                monitor.feed(RING)
            except RuntimeError as fault:
                found.append(str(fault))

        with Monitor() as monitor:
            thread = threading.Thread(target=calls, args=(monitor,))
            thread.start()
            thread.join()
        self.assertEqual(found, ["a Monitor stays on the thread that made it"])


@unittest.skipUnless(hasattr(_library.library, "refuse"), "the library refuses no allocation")
class Memory(unittest.TestCase):
    """Over a library that refuses the allocation with a number, once (tests/players/refuse.c)."""

    def test_a_monitor_ends_where_memory_is_refused(self):
        refuse = _library.library.refuse
        refuse.argtypes = [ctypes.c_long]
        for number in range(MOST_ALLOCATIONS):
            refuse(number + 1)
            try:
                with Monitor(PARAMS) as monitor:
                    self.assertEqual(monitor.feed(RING), SAID)
                break
            except pbfdl.NoMemory:
                pass
            finally:
                refuse(0)
        self.assertTrue(3 < number < MOST_ALLOCATIONS - 1)
        monitor = Monitor(PARAMS)
        refuse(1)
        with self.assertRaises(pbfdl.NoMemory):
            monitor.feed(RING)
        refuse(0)
        with self.assertRaises(pbfdl.Finished):
            monitor.feed(RING)


if __name__ == "__main__":
    unittest.main()
