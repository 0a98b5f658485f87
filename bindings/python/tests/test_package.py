"""Each class of the package: what it does, what it refuses, and by which fault.

    python3 -m unittest discover tests
"""

import ctypes
import pickle
import threading
import unittest

import pbfdl
from pbfdl import Bus, Entry, Heard, Indication, Kind, OutcomeKind, Params, Phase, Receiver, Service, Station, Tap, Telegram, _library

NUMBERS = dict(tsl=100, tid1=37, tid2=60, tsdr=11, lag=0, ttr=10_000, gap=10, hsa=5, retries=1, ttd=0)
PARAMS = Params(**NUMBERS)
REQUEST = bytes.fromhex("6804046807017daa2f16")
# Far more than a call makes.
MOST_ALLOCATIONS = 1000
REPLY = bytes.fromhex("6805056801070abbcc9916")


class Faults(unittest.TestCase):
    def test_each_has_a_name_a_code_and_a_text(self):
        for code, fault in pbfdl.faults.BY_CODE.items():
            self.assertEqual((fault().code, fault().name), (code, fault.__name__))
            self.assertTrue(str(fault()))
            self.assertIs(getattr(pbfdl, fault.__name__), fault)
            self.assertIsInstance(pickle.loads(pickle.dumps(fault())), fault)
        self.assertEqual(len(pbfdl.faults.BY_CODE), 55)
        self.assertIn("999", str(pbfdl.faults.fault_of(999)))

    def test_they_have_groups(self):
        self.assertTrue(issubclass(pbfdl.BadCheck, pbfdl.TelegramFault))
        self.assertTrue(issubclass(pbfdl.ParamSlot, pbfdl.ParamFault))
        self.assertTrue(issubclass(pbfdl.NoMemory, MemoryError))


class Parameters(unittest.TestCase):
    def test_each_limit_has_its_fault(self):
        bad = dict(tsl=99, tid1=32, tid2=36, tsdr=10, ttr=255, gap=0, hsa=127, retries=8, lag=40)
        faults = "Slot IdleShort IdleOrder ReplyShort Rotation GapFactor Highest Retries TakeLate".split()
        for (name, value), fault in zip(bad.items(), faults):
            with self.assertRaises(getattr(pbfdl, f"Param{fault}")):
                Params(**{**NUMBERS, name: value})
        with self.assertRaises(pbfdl.ParamReplyLate):
            Params(**{**NUMBERS, "tsdr": 100})

    def test_no_number_is_cut(self):
        for value in (-1, 2**32):
            with self.assertRaisesRegex(ValueError, f"lag is {value}; allowed: 0 to 4294967295"):
                Params(**{**NUMBERS, "lag": value})
        with self.assertRaises(TypeError):
            Params(**{**NUMBERS, "lag": 1.5})

    def test_equal_ones_are_equal(self):
        self.assertEqual(PARAMS, Params(**NUMBERS))
        self.assertEqual(eval(repr(PARAMS)), PARAMS)


class Telegrams(unittest.TestCase):
    def test_octets_and_back(self):
        spelt = {
            "dc0201": Telegram.token(2, 1),
            "e5": Telegram.short_ack(),
            "100201494c16": Telegram.with_data(2, 1, 0x49, b""),
            "a209057d0102030405060708af16": Telegram.with_data(9, 5, 0x7D, bytes(range(1, 9))),
            "6805056889855d3c3ee516": Telegram(Kind.SD2, 0x89, 0x85, 0x5D, b"\x3c\x3e"),
        }
        for octets, telegram in spelt.items():
            self.assertEqual(Telegram.parse(bytes.fromhex(octets)), telegram)
            self.assertEqual(bytes(telegram).hex(), octets)
            self.assertEqual(len({telegram, Telegram.parse(bytes(telegram))}), 1)

    def test_octets_that_spell_none(self):
        faults = {"": "Empty", "00": "BadStart", "dc02": "Truncated", "6803036800000000": "BadLength", "dc7f01": "BadAddress"}
        faults.update({"10020149ff16": "BadCheck", "100201494c17": "BadEnd", "e5e5": "Trailing", "1002018900": "Truncated"})
        for octets, fault in faults.items():
            with self.assertRaises(getattr(pbfdl, fault)):
                Telegram.parse(bytes.fromhex(octets))
        with self.assertRaises(TypeError):
            Telegram.parse(3)

    def test_fields_that_make_none(self):
        for telegram, fault in (
            (Telegram(0), pbfdl.BadKind),
            (Telegram(Kind.SD2, 1, 2, 3, bytes(247)), pbfdl.BadKind),
            (Telegram(Kind.SD2), pbfdl.BadLength),
            (Telegram(Kind.SD4, 127), pbfdl.BadAddress),
            (Telegram(Kind.SD1, fc=128), pbfdl.BadControl),
            (Telegram(Kind.SD1, da=256), ValueError),
        ):
            with self.assertRaises(fault):
                bytes(telegram)


class Receivers(unittest.TestCase):
    def test_a_burst(self):
        receiver = Receiver()
        with self.assertRaises(pbfdl.Empty):
            receiver.telegram()
        self.assertEqual([receiver.receive(it) for it in b"\xdc\x02"], [None, None])
        self.assertEqual(receiver.receive(1), Telegram.token(2, 1))
        with self.assertRaises(pbfdl.Trailing):
            receiver.receive(0)
        with self.assertRaises(pbfdl.Damaged):
            receiver.receive(pbfdl.DAMAGED)
        self.assertEqual((len(receiver), repr(receiver)), (5, "<Receiver [dc 02 01 00 --]>"))

    def test_it_takes_255_characters(self):
        receiver, other = Receiver(), Receiver()
        for _ in range(255):
            with self.assertRaises(pbfdl.BadStart):
                receiver.receive(0)
        with self.assertRaises(pbfdl.TooLong):
            receiver.receive(0)
        self.assertEqual(receiver.characters, (0,) * 255)
        self.assertNotEqual(receiver, other)
        self.assertEqual(other, Receiver())
        with self.assertRaises(ValueError):
            other.receive(2**16)


class Stations(unittest.TestCase):
    def test_what_a_new_one_may_be(self):
        for address, words, fault in (
            (6, {}, pbfdl.BadStation),
            (127, {"master": False}, pbfdl.BadStation),
            (1, {"reply": bytes(247)}, pbfdl.LongData),
            (6, {"room": 1}, pbfdl.BadRoom),
            (1, {"room": 65}, pbfdl.BadRoom),
            (1, {"room": -1}, ValueError),
            (300, {}, ValueError),
        ):
            with self.assertRaises(fault):
                Station(PARAMS, address, **words)

    def test_moments_and_marks(self):
        station = Station(PARAMS, 1)
        self.assertIsNone(station.due)
        station.start(100)
        for call, fault in (
            (lambda: station.start(99), pbfdl.Backwards),
            (lambda: station.turn(99), pbfdl.Backwards),
            (lambda: station.turn(pbfdl.LAST_MOMENT + 1), pbfdl.TooLate),
            (lambda: station.begin(101, 100), pbfdl.Ahead),
            (lambda: station.begin(99), pbfdl.Backwards),
            (lambda: station.end(100, bytes(256)), pbfdl.TooLong),
            (lambda: station.end(100, [0] * 256), pbfdl.TooLong),
            (lambda: station.push(2, Service(0), bytes(247)), pbfdl.LongData),
            (lambda: station.push(127, Service.SDA), pbfdl.BadStation),
            (lambda: station.push(2, 3), pbfdl.BadService),
            (lambda: station.is_active(127), pbfdl.BadStation),
            (lambda: station.set_reply(bytes(247)), pbfdl.LongData),
            (lambda: station.begin(-1), ValueError),
            (lambda: station.push(2, Service.SDA, 5), TypeError),
            (lambda: station.set_reply("text"), TypeError),
        ):
            with self.assertRaises(fault):
                call()
        for _ in range(32):
            station.begin(100)
            station.end(100, [0x10, pbfdl.DAMAGED])
        with self.assertRaises(pbfdl.InboxFull):
            station.noise(100)

    def test_room_for_marks(self):
        station = Station(PARAMS, 1, room=2)
        station.start(100)
        for _ in range(2):
            station.begin(100)
            station.noise(100)
            with self.assertRaisesRegex(pbfdl.InboxFull, "2 marks are unread"):
                station.begin(100)
            self.assertEqual(station.turn(100), b"")
        self.assertEqual((station.room, Station(PARAMS, 1).room), (2, 64))

    def test_requests_wait(self):
        station = Station(PARAMS, 1)
        station.start(0)
        for _ in range(16):
            station.push(pbfdl.ALL_STATIONS, Service.SDN, bytes(246), high=True)
        with self.assertRaises(pbfdl.QueueFull):
            station.push(2, Service.SDA, high=True)
        station.push(2, Service.SDA)
        self.assertEqual((station.phase, station.active, station.executed, station.outcome), (Phase.LISTENING, [], 0, None))

    def test_data_in_and_out(self):
        station = Station(PARAMS, 7, master=False)
        station.start(0)
        station.set_reply(b"\xbb\xcc")
        station.begin(100)
        station.end(210, REQUEST)
        self.assertEqual(station.turn(210), b"")
        self.assertEqual(station.indications, [pbfdl.Indication(1, Service.SRD, True, b"\xaa")])
        self.assertEqual((station.turn(221), station.executed, station.indications), (REPLY, 1, []))
        station.stop()
        self.assertEqual(repr(station), "<Station 7, passive, OFFLINE>")

    def test_a_closed_one(self):
        with Station(PARAMS, 1) as station:
            station.start(0)
        station.close()
        self.assertTrue(station.closed)
        self.assertEqual(repr(station), "<Station 1, master, closed>")
        with self.assertRaises(pbfdl.NoPort):
            station.turn(0)

    def test_another_thread_gets_an_error(self):
        station, found = Station(PARAMS, 1), []

        def call():
            try:
                station.start(0)
            except RuntimeError as error:
                found.append(str(error))

        thread = threading.Thread(target=call)
        thread.start()
        thread.join()
        self.assertEqual(found, ["a Station stays on the thread that made it"])


class Buses(unittest.TestCase):
    def ring(self):
        bus = Bus(PARAMS, [Tap(1), Tap(2), Tap(9, master=False, reply=b"\xaa\xbb")])
        for tap in range(3):
            bus.start(tap)
        return bus

    def test_a_bus_keeps_what_a_slave_executes(self):
        bus = self.ring()
        with self.assertRaisesRegex(pbfdl.NoIndication, "call keep_indications.2. first"):
            bus.indications(2)
        with self.assertRaises(pbfdl.NoSuchTap):
            bus.keep_indications(3)
        with self.assertRaises(pbfdl.NoMemory):
            bus.keep_indications(2, 2**60)
        bus.keep_indications(2, room=1)
        for octet in (7, 8):
            bus.queue(0, 9, Service.SRD, bytes([octet]), high=True)
        bus.run(4000)
        self.assertEqual(bus.executed(2), 2)
        self.assertEqual(bus.take_indications(2), [Indication(source=1, service=Service.SRD, high=True, data=b"\x07")])
        self.assertEqual(bus.indications(2), [])

    def test_a_ring_settles_as_its_second_master_gets_the_token(self):
        bus = self.ring()
        bus.run(1152)
        self.assertFalse(bus.is_settled)
        bus.run(1153)
        self.assertTrue(bus.is_settled)
        self.assertEqual(bus.trace.text(["a", "b", "c"]).splitlines()[0], "800 833 a dc0101 -ww")
        with self.assertRaisesRegex(ValueError, "names has 1; wanted: one for each of the 3 taps"):
            bus.trace.text(["a"])

    def test_what_a_new_one_may_be(self):
        for taps, fault in (
            ([], pbfdl.NoTaps),
            ([Tap(0, master=False)] * 128, pbfdl.TooManyTaps),
            ([Tap(6)], pbfdl.BadStation),
            ([Tap(127, master=False)], pbfdl.BadStation),
            ([Tap(1, reply=bytes(247))], pbfdl.LongData),
            ([Tap(1, reply=7)], TypeError),
        ):
            with self.assertRaises(fault):
                Bus(PARAMS, taps)

    def test_what_events_are_refused(self):
        bus = self.ring()
        for call, fault in (
            (lambda: bus.start(0), pbfdl.Running),
            (lambda: bus.start(3), pbfdl.NoSuchTap),
            (lambda: bus.turn(3), pbfdl.NoSuchTap),
            (lambda: bus.pass_time(0), pbfdl.ZeroTime),
            (lambda: bus.pass_time(10**12 + 1), pbfdl.ClockFull),
            (lambda: bus.noise(0), pbfdl.ZeroTime),
            (lambda: bus.noise(2**32), pbfdl.TooFar),
            (lambda: bus.damage(0, 1), pbfdl.NothingInAir),
            (lambda: bus.unheard(0, 1), pbfdl.NothingInAir),
            (lambda: bus.queue(2, 1, Service.SDA), pbfdl.NotRunning),
            (lambda: bus.queue(0, 127, Service.SRD), pbfdl.BadStation),
            (lambda: bus.queue(0, 2, 3), pbfdl.BadService),
            (lambda: bus.queue(0, 2, Service.SRD, bytes(247)), pbfdl.LongData),
            (lambda: bus.run(10**12 + 1), pbfdl.ClockFull),
            (lambda: bus.phase(3), pbfdl.NoSuchTap),
            (lambda: bus.outcome(3), pbfdl.NoSuchTap),
            (lambda: bus.due(3), pbfdl.NoSuchTap),
            (lambda: bus.is_active(0, 127), pbfdl.BadStation),
            (lambda: bus.due(-1), pbfdl.NoSuchTap),
        ):
            with self.assertRaises(fault):
                call()
        self.assertEqual((bus.now, len(bus.trace)), (0, 0))
        bus.run(820)
        with self.assertRaises(pbfdl.TooFar):
            bus.pass_time(14)
        with self.assertRaises(pbfdl.Backwards):
            bus.run(819)

    def test_a_fault_says_what_was_found_and_what_is_allowed(self):
        bus = self.ring()
        bus.run(40)
        for call, fault, text in (
            (lambda: [bus.queue(0, 9, Service.SRD) for _ in range(17)], pbfdl.QueueFull, "16 requests of low priority wait: let the bus run"),
            (lambda: bus.queue(0, 127, Service.SRD), pbfdl.BadStation, "da is 127; allowed: 0 to 126, and 127 .* with Service.SDN alone"),
            (lambda: bus.queue(0, 300, Service.SDN), ValueError, "da is 300; allowed: 0 to 126, and 127"),
            (lambda: bus.queue(0, 9, "SRD"), TypeError, "service is 'SRD'; wanted: a Service, as Service.SRD"),
            (lambda: bus.queue(0, 9, 3), pbfdl.BadService, "service is 3; allowed: Service.SDA"),
            (lambda: bus.queue(0, 9, Service.SRD, "text"), TypeError, "data is 'text'; wanted: octets"),
            (lambda: bus.queue(0, 9, Service.SRD, [300]), ValueError, "data is .300.; allowed: octets, each 0 to 255"),
            (lambda: bus.queue(0, 9, Service.SRD, bytes(247)), pbfdl.LongData, "data has 247 octets; allowed: 0 to 246"),
            (lambda: bus.queue(2, 9, Service.SRD), pbfdl.NotRunning, "tap 2 is passive: only a master"),
            (lambda: bus.start(0), pbfdl.Running, "tap 0 runs"),
            (lambda: bus.run(39), pbfdl.Backwards, r"until is 39; allowed: the clock \(40\) and later moments"),
            (lambda: bus.phase(3), pbfdl.NoSuchTap, "tap is 3; the bus has 3 taps: 0 to 2"),
            (lambda: bus.damage(0, -1), pbfdl.NoSuchTap, "speaker is -1; the bus has 3 taps: 0 to 2"),
            (lambda: bus.damage(0, 1, 2), pbfdl.NothingInAir, "no telegram with a character 2 of tap 1 is on the bus to tap 0 at 40: run"),
            (lambda: bus.unheard(0, 1), pbfdl.NothingInAir, "no telegram of tap 1 to tap 0 begins at 40: run"),
            (lambda: Bus(PARAMS, [(1, True)]), TypeError, r"taps\[0\] is \(1, True\); wanted: a Tap"),
            (lambda: Bus(PARAMS, [Tap(1), Tap(6)]), pbfdl.BadStation, "the address of tap 1 is 6; allowed: 0 to 5"),
            (lambda: Bus(NUMBERS, [Tap(1)]), TypeError, "params is .*; wanted: Params"),
            (lambda: Station(1, 2), TypeError, "params is 1; wanted: Params"),
            (lambda: bytes(Telegram.token(127, 3)), pbfdl.BadAddress, "da is 127, sa is 3; allowed: 0 to 126"),
            (lambda: Station(PARAMS, 6), pbfdl.BadStation, "address is 6; allowed: 0 to 5"),
            (lambda: Params(**{**NUMBERS, "tsl": 99}), pbfdl.ParamSlot, "tsl is 99; allowed: 100 to 16383"),
            (lambda: Params(**{**NUMBERS, "lag": 40}), pbfdl.ParamTakeLate, r"tid2 \+ lag \+ 2 \* ttd is 100; allowed: under tsl \(100\)"),
        ):
            with self.subTest(text), self.assertRaisesRegex(fault, text):
                call()

    def test_requests_and_outcomes(self):
        bus = self.ring()
        bus.queue(0, 9, Service.SRD, b"\x01", high=True)
        bus.run(2000)
        self.assertEqual(bus.outcome(0), pbfdl.Outcome(OutcomeKind.DATA, 9, b"\xaa\xbb"))
        self.assertEqual((bus.executed(2), bus.active(0), bus.phase(2)), (1, [1, 2], Phase.PASSIVE_IDLE))
        self.assertEqual(str(bus.audit()), "premises kept\ntrace legal")
        self.assertTrue(bus.audit().is_clean)

    def test_other_data_between_events(self):
        bus = self.ring()
        bus.run(2000)
        bus.set_reply(2, b"\xcc")
        bus.queue(0, 9, Service.SRD)
        bus.run(4000)
        self.assertEqual(bus.outcome(0), pbfdl.Outcome(OutcomeKind.DATA, 9, b"\xcc"))
        self.assertEqual(str(bus.audit()), "premises kept\ntrace legal")
        with self.assertRaises(pbfdl.LongData):
            bus.set_reply(2, bytes(247))
        with self.assertRaises(pbfdl.NoSuchTap):
            bus.set_reply(3, b"")

    def test_a_trace_is_a_sequence(self):
        bus = self.ring()
        bus.run(845)
        bus.noise(20)
        bus.run(1500)
        trace = bus.trace
        self.assertEqual(trace[0], Entry(800, 833, 0, b"\xdc\x01\x01", (Heard.OWN, Heard.WHOLE, Heard.WHOLE)))
        self.assertEqual(trace[0].telegram, Telegram.token(1, 1))
        self.assertTrue(trace[1].is_noise)
        self.assertIsNone(trace[1].telegram)
        self.assertEqual(trace[-1], list(trace)[-1])
        self.assertEqual((trace[:2], trace), (list(trace)[:2], list(trace)))
        self.assertEqual(trace.text("abc").splitlines()[:2], ["800 833 a dc0101 -ww", "845 865 ~ noise"])
        row = {"begin": 800, "end": 833, "tap": 0, "octets": "dc0101"}
        self.assertEqual(trace.rows()[0], {**row, "kind": "token", "da": 1, "sa": 1, "heard": "-ww"})
        self.assertEqual([(it["kind"], it["da"], it["sa"]) for it in trace.rows()], [("token", 1, 1), ("noise", None, None)])
        with self.assertRaises(IndexError):
            trace[len(trace)]

    def test_kinds_of_entries(self):
        bus = self.ring()
        bus.queue(0, 9, Service.SDA, high=True)
        bus.run(1300)
        kinds = [(it.kind, it.row()["da"], it.row()["sa"]) for it in bus.trace]
        self.assertEqual(kinds[2:5], [("request", 9, 1), ("acknowledgement", None, None), ("request", 2, 1)])
        self.assertEqual(kinds[5:6], [("reply", 1, 2)])

    def test_a_bus_runs_on_without_what_is_over(self):
        whole, bus, stepped = self.ring(), self.ring(), self.ring()
        whole.run(20_000)
        streamed = list(bus.stream(20_000, step=900))
        settled = []
        for moment in range(1_000, 20_001, 1_000):
            stepped.run(moment)
            settled += stepped.take_settled()
            self.assertEqual(stepped.take_settled(), [])
        for it, found in ((bus, streamed), (stepped, settled)):
            self.assertGreater(len(found), 200)
            self.assertLess(len(it.trace), 5)
            self.assertEqual(found + list(it.trace), whole.trace)
            self.assertEqual((it.audit(), it.now), (whole.audit(), 20_000))
        with self.assertRaises(ValueError):
            next(bus.stream(30_000, step=0))
        with self.assertRaises(pbfdl.Backwards):
            next(bus.stream(10_000))

    def test_the_entries_that_are_let_go_count(self):
        bus = Bus(PARAMS, [Tap(1), Tap(2)], entries=10)
        bus.start(0)
        bus.start(1)
        bus.run(1_200)
        settled = bus.take_settled()
        self.assertGreater(len(settled), 2)
        with self.assertRaises(pbfdl.TraceFull):
            bus.run(100_000)
        self.assertEqual(len(settled) + len(bus.trace), 10)
        with self.assertRaises(ValueError):
            Bus(PARAMS, [Tap(1)], entries=-1)

    def test_a_run_without_an_end(self):
        bus = Bus(PARAMS, [Tap(1), Tap(2)], entries=10**12)
        bus.start(0)
        bus.start(1)
        count = kept = 0
        for entry in bus.stream(8_000_000, step=100_000):
            count += 1
            kept = max(kept, len(bus.trace))
        self.assertGreater(count, 100_000)
        self.assertLess(kept, 5)
        self.assertTrue(bus.audit().is_clean)

    def test_an_audit_knows_what_was_let_go(self):
        bus = Bus(PARAMS, [Tap(1), Tap(2)])
        bus.start(0)
        bus.start(1)
        bus.run(800)
        bus.unheard(1, 0)
        bus.stop(0)
        bus.run(990)
        self.assertEqual(len(bus.take_settled()), 1)
        bus.run(1_000)
        self.assertEqual([(entry.tap, entry.kind) for entry in bus.trace], [(1, "token")])
        self.assertEqual((bus.audit().premise, bus.audit().illegal), (2, 1))

    def test_an_audit_finds_a_lost_telegram(self):
        bus = self.ring()
        bus.run(800)
        bus.unheard(1, 0)
        bus.run(900)
        self.assertEqual(bus.audit(), pbfdl.Audit(premise=2, moment=800))
        self.assertEqual(str(bus.audit()), "premise P2 broken at 800\ntrace legal")

    def test_a_closed_one(self):
        with self.ring() as bus:
            trace = bus.trace
        self.assertEqual(repr(bus), "<Bus of 3 taps, closed>")
        with self.assertRaises(pbfdl.NoBus):
            len(trace)


@unittest.skipUnless(hasattr(_library.library, "refuse"), "the library cannot be told to refuse memory")
class Memory(unittest.TestCase):
    """Over a library that refuses the allocation with a number, once (tests/players/refuse.c)."""

    def refused(self, call):
        """How many allocations of a call raise `NoMemory` when they are refused."""
        refuse = _library.library.refuse
        refuse.argtypes = [ctypes.c_long]
        for number in range(MOST_ALLOCATIONS):
            refuse(number + 1)
            try:
                call()
                return number
            except pbfdl.NoMemory:
                pass
            finally:
                refuse(0)
        raise AssertionError(f"over {MOST_ALLOCATIONS} allocations are refused")

    def test_a_station_takes_memory_when_it_is_made(self):
        self.assertGreater(self.refused(lambda: Station(PARAMS, 1).close()), 0)
        station = Station(PARAMS, 1)
        self.assertEqual(self.refused(lambda: station.start(0)), 0)
        self.assertEqual(self.refused(lambda: station.turn(0)), 0)

    def test_a_bus_is_as_before_where_memory_is_refused(self):
        taps = [Tap(1), Tap(2)]
        self.assertGreater(self.refused(lambda: Bus(PARAMS, taps).close()), 0)
        bus, other = Bus(PARAMS, taps), Bus(PARAMS, taps)
        for it in (bus, other):
            it.start(0)
            it.start(1)
        self.assertGreater(self.refused(lambda: bus.keep_indications(1)), 0)
        self.assertGreater(self.refused(lambda: bus.run(5000)), 0)
        other.run(5000)
        self.assertEqual(bus.trace, other.trace)
        self.assertGreater(self.refused(bus.audit), 0)
        self.assertEqual(bus.trace, other.trace)
        self.assertGreater(self.refused(bus.take_settled), 0)
        self.assertGreater(len(other.trace), len(bus.trace))


if __name__ == "__main__":
    unittest.main()
