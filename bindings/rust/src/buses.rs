//! A simulated bus with stations at its taps.

use alloc::vec::Vec;
use core::cell::UnsafeCell;
use core::fmt;
use core::ptr;

use crate::faults::{check, Fault};
use crate::params::Params;
use crate::stations::{Indication, Outcome, Phase, Priority, Service, NO_OUTCOME};
use crate::sys;
use crate::traces::{Audit, Entry, Trace};

/// Damages all characters of a telegram.
const ALL_CHARACTERS: u32 = 256;

/// How many entries the trace of a bus has, if nothing else is said.
const MOST_ENTRIES: usize = 100_000;

/// A place on the bus with its station.
#[derive(Clone, Debug, PartialEq, Eq, Hash)]
pub struct Tap {
    /// 0 to `Params::hsa` for a master, 0 to 126 for a passive station. Two running taps need different ones.
    pub address: u8,
    /// Whether it is a master.
    pub master: bool,
    /// What it replies to a request for data, at most 246 octets.
    pub reply: Vec<u8>,
}

impl Tap {
    /// A master, which has no data to reply.
    pub fn master(address: u8) -> Tap {
        Tap { address, master: true, reply: Vec::new() }
    }

    /// A passive station.
    pub fn passive(address: u8, reply: &[u8]) -> Tap {
        Tap { address, master: false, reply: reply.to_vec() }
    }

    fn given(&self) -> Result<sys::fdl_tap, Fault> {
        let mut given = sys::fdl_tap { address: self.address, master: self.master, count: 0, reply: [0; sys::FDL_MOST_DATA] };
        given.reply.get_mut(..self.reply.len()).ok_or(Fault::LongData)?.copy_from_slice(&self.reply);
        given.count = self.reply.len() as u8;
        Ok(given)
    }
}

/// A bus with stations at its taps, at the moment 0. No station runs before [`Bus::start`].
///
/// A tap is named by its index, from 0. Times are whole bit times, moments count from 0 to 10^12. [`Bus::run`] plays the bus to a
/// moment; between runs the caller starts, stops, queues requests and disturbs. Each event of the bus either happens, or answers a
/// fault and changes nothing; all answer `NoSuchTap` for a missing tap.
///
/// ```
/// use pbfdl::{Bus, Params, Tap};
///
/// let params = Params { tsl: 100, tid1: 37, tid2: 60, tsdr: 11, lag: 0, ttr: 10_000, gap: 10, hsa: 5, retries: 1, ttd: 0 };
/// let mut bus = Bus::new(&params, &[Tap::master(1), Tap::master(2)])?;
/// bus.start(0)?;
/// bus.start(1)?;
/// bus.run(900)?;
/// assert_eq!(bus.trace().text(&["a", "b"]), "800 833 a dc0101 -w\n870 903 a dc0101 -.\n");
/// # Ok::<(), pbfdl::Fault>(())
/// ```
///
/// A bus stays on the thread that made it:
///
/// ```compile_fail
/// fn sends<T: Send>() {}
/// sends::<pbfdl::Bus>();
/// ```
pub struct Bus {
    // As in Station: calls that read take the bus out and put it back, on one thread.
    bus: UnsafeCell<sys::fdl_bus>,
    taps: usize,
}

impl Bus {
    /// A bus with 1 to 127 taps, whose trace may have 100,000 entries.
    ///
    /// # Errors
    /// The first fault of the parameters; `LongData`; `NoTaps`; `TooManyTaps`; `BadStation` for a master's address over `params.hsa`,
    /// or another's over 126; `NoMemory`.
    pub fn new(params: &Params, taps: &[Tap]) -> Result<Bus, Fault> {
        Bus::within(params, taps, MOST_ENTRIES)
    }

    /// A bus whose trace may have this many entries; then events that add one answer `TraceFull`. Entries that are let go
    /// ([`Bus::take_settled`]) count, too: 10^12 are enough for any run.
    ///
    /// # Errors
    /// As [`Bus::new`].
    pub fn within(params: &Params, taps: &[Tap], entries: usize) -> Result<Bus, Fault> {
        params.check()?;
        let given = taps.iter().map(Tap::given).collect::<Result<Vec<_>, _>>()?;
        let bus = Bus { bus: UnsafeCell::new(sys::fdl_bus { at: ptr::null_mut() }), taps: taps.len() };
        // SAFETY: the bus is empty, and the array has as many taps as is said.
        check(unsafe { sys::fdl_bus_new_within(bus.at(), params, given.as_ptr(), given.len(), entries) })?;
        Ok(bus)
    }

    fn at(&self) -> *mut sys::fdl_bus {
        self.bus.get()
    }

    /// How many taps there are.
    pub fn taps(&self) -> usize {
        self.taps
    }

    /// The station starts, with nothing heard.
    ///
    /// # Errors
    /// `Running`, also while a telegram of its own is on the bus.
    pub fn start(&mut self, tap: usize) -> Result<(), Fault> {
        // SAFETY: the bus is this value's own; so in all calls below, which keep no pointer.
        check(unsafe { sys::fdl_bus_start(self.at(), tap) })
    }

    /// The station stops; a telegram that it is sending ends with the present character.
    ///
    /// # Errors
    /// `NotRunning`.
    pub fn stop(&mut self, tap: usize) -> Result<(), Fault> {
        check(unsafe { sys::fdl_bus_stop(self.at(), tap) })
    }

    /// The station takes its turn now. [`Bus::run`] does so when it is due.
    ///
    /// # Errors
    /// `NotRunning`; `TraceFull` or `NoMemory` where it would send.
    pub fn turn(&mut self, tap: usize) -> Result<(), Fault> {
        check(unsafe { sys::fdl_bus_turn(self.at(), tap) })
    }

    /// Time passes, 1 bit time and more. [`Bus::run`] does so, too.
    ///
    /// # Errors
    /// `ZeroTime`; `TooFar` past the next end on the bus ([`Bus::next_change`] says which moment is allowed); `ClockFull`;
    /// `InboxFull` where a tap would have more than 64 unread marks.
    pub fn pass(&mut self, bits: u64) -> Result<(), Fault> {
        check(unsafe { sys::fdl_bus_pass(self.at(), bits) })
    }

    /// Noise reaches all taps from now on, for 1 to 4,294,967,295 bit times; noise on the bus lasts at least as long.
    ///
    /// # Errors
    /// `TooFar` for more, `ZeroTime`, `TraceFull`, `NoMemory`.
    pub fn noise(&mut self, bits: u64) -> Result<(), Fault> {
        check(unsafe { sys::fdl_bus_noise(self.at(), bits) })
    }

    /// A tap hears what the speaker is sending damaged: one character, by its place from 0, or all.
    ///
    /// # Errors
    /// `NothingInAir`, `NoMemory`.
    pub fn damage(&mut self, tap: usize, speaker: usize, place: Option<u8>) -> Result<(), Fault> {
        let place = place.map_or(ALL_CHARACTERS, u32::from);
        check(unsafe { sys::fdl_bus_damage(self.at(), tap, speaker, place) })
    }

    /// A tap does not hear what the speaker begins to send now. This breaks premise 2.
    ///
    /// # Errors
    /// `NothingInAir`.
    pub fn unheard(&mut self, tap: usize, speaker: usize) -> Result<(), Fault> {
        check(unsafe { sys::fdl_bus_unheard(self.at(), tap, speaker) })
    }

    /// A request with at most 246 octets of data waits at a running master, behind the others of its priority, for the station with
    /// the address `da`, 0 to 126, or for all ([`ALL_STATIONS`](crate::ALL_STATIONS), [`Service::Sdn`] alone).
    ///
    /// # Errors
    /// `LongData`, `BadStation`, `NotRunning` (also for a passive station), `QueueFull` (16 wait).
    pub fn queue(&mut self, tap: usize, da: u8, service: Service, priority: Priority, data: &[u8]) -> Result<(), Fault> {
        let high = priority == Priority::High;
        check(unsafe { sys::fdl_bus_queue(self.at(), tap, da, service as u8, high, data.as_ptr(), data.len()) })
    }

    /// A tap replies to the next request for data with at most 246 octets; with none, that it has no data. This is no event: nothing
    /// else changes, and [`Bus::audit`] judges the events alone. A repeat of the last request still gets the reply that was sent.
    ///
    /// # Errors
    /// `LongData`.
    pub fn set_reply(&mut self, tap: usize, reply: &[u8]) -> Result<(), Fault> {
        check(unsafe { sys::fdl_bus_set_reply(self.at(), tap, reply.as_ptr(), reply.len()) })
    }

    /// The bus runs to the moment `until`: instant by instant the due turns, in the order of the taps, then time to the next.
    ///
    /// The turns that are due at `until` are taken, too, so what the caller does then comes after them. (`ringplay run` does the steps
    /// of a moment before its turns: `run(at - 1)` and `pass(1)` stop before the turns of `at`.)
    ///
    /// # Errors
    /// `Backwards` where it is before now; `ClockFull` over 10^12; those of [`Bus::turn`] and [`Bus::pass`], and the bus stands before
    /// the refused event then.
    pub fn run(&mut self, until: u64) -> Result<(), Fault> {
        check(unsafe { sys::fdl_bus_run(self.at(), until) })
    }

    /// The clock, in bit times.
    pub fn now(&self) -> u64 {
        let mut now = 0;
        let _ = unsafe { sys::fdl_bus_now(self.at(), &mut now) };
        now
    }

    /// When the station at a tap has to take its turn; `None` where nothing is to come.
    ///
    /// # Errors
    /// `NoSuchTap`.
    pub fn due(&self, tap: usize) -> Result<Option<u64>, Fault> {
        let mut at = sys::FDL_NEVER;
        check(unsafe { sys::fdl_bus_due(self.at(), tap, &mut at) })?;
        Ok(Some(at).filter(|&at| at != sys::FDL_NEVER))
    }

    /// When something next changes on the bus, turns apart; `None` where nothing is to come.
    pub fn next_change(&self) -> Option<u64> {
        let mut at = sys::FDL_NEVER;
        let _ = unsafe { sys::fdl_bus_next_change(self.at(), &mut at) };
        Some(at).filter(|&at| at != sys::FDL_NEVER)
    }

    /// Keeps the requests of others that the station at a tap executes from now on, without repeats: the first ones, as many as
    /// there is room for. [`Bus::take_indications`] makes room again. What was kept of this tap is forgotten.
    ///
    /// # Errors
    /// `NoSuchTap`, `NoMemory`.
    pub fn keep_indications(&mut self, tap: usize, room: usize) -> Result<(), Fault> {
        check(unsafe { sys::fdl_bus_keep_indications(self.at(), tap, room) })
    }

    /// The requests that are kept of a tap, in the order of their execution.
    ///
    /// # Errors
    /// `NoIndication` where they are not asked for.
    pub fn indications(&self, tap: usize) -> Result<Vec<Indication>, Fault> {
        let mut count = 0;
        check(unsafe { sys::fdl_bus_indications(self.at(), tap, &mut count) })?;
        (0..count).map(|index| self.indication(tap, index)).collect()
    }

    fn indication(&self, tap: usize, index: usize) -> Result<Indication, Fault> {
        let mut found = Indication::nothing();
        check(unsafe { sys::fdl_bus_indication(self.at(), tap, index, &mut found) })?;
        Ok(Indication::of(&found))
    }

    /// [`Bus::indications`], and forgets them: there is room for later ones.
    ///
    /// # Errors
    /// `NoIndication` where they are not asked for.
    pub fn take_indications(&mut self, tap: usize) -> Result<Vec<Indication>, Fault> {
        let taken = self.indications(tap)?;
        check(unsafe { sys::fdl_bus_forget_indications(self.at(), tap) })?;
        Ok(taken)
    }

    /// Whether the ring is settled: its masters agree on who belongs to it and have had the token, one of them has it, no reply waits
    /// and nothing is on its way, so only between telegrams. If no premise breaks ([`Bus::audit`]), each of them then gets the token
    /// again and again within the bound of a rotation (`ringplay bounds`), while there is no damage, noise, start or stop,
    /// whatever [`Bus::set_reply`] changes meanwhile.
    pub fn is_settled(&self) -> bool {
        let mut settled = false;
        let _ = unsafe { sys::fdl_bus_is_settled(self.at(), &mut settled) };
        settled
    }

    /// The phase of the station at a tap.
    ///
    /// # Errors
    /// `NoSuchTap`.
    pub fn phase(&self, tap: usize) -> Result<Phase, Fault> {
        let mut phase = 0;
        check(unsafe { sys::fdl_bus_phase(self.at(), tap, &mut phase) })?;
        Ok(Phase::of(phase))
    }

    /// Whether an address, 0 to 126, is in the list of active stations of a tap.
    ///
    /// # Errors
    /// `BadStation`, `NoSuchTap`.
    pub fn is_active(&self, tap: usize, address: u8) -> Result<bool, Fault> {
        let mut active = false;
        check(unsafe { sys::fdl_bus_is_active(self.at(), tap, address, &mut active) })?;
        Ok(active)
    }

    /// How many requests of others the station at a tap has executed since its start, without repeats.
    ///
    /// # Errors
    /// `NoSuchTap`.
    pub fn executed(&self, tap: usize) -> Result<u64, Fault> {
        let mut count = 0;
        check(unsafe { sys::fdl_bus_executed(self.at(), tap, &mut count) })?;
        Ok(count)
    }

    /// What came of its last request that had an outcome; `None` where none has had one since its start.
    ///
    /// # Errors
    /// `NoSuchTap`.
    pub fn outcome(&self, tap: usize) -> Result<Option<Outcome>, Fault> {
        let mut found = NO_OUTCOME;
        check(unsafe { sys::fdl_bus_outcome(self.at(), tap, &mut found) })?;
        Ok(Outcome::of(&found))
    }

    /// The first entries of the trace, which are over and no longer change, and lets them go: they leave the trace, whose other
    /// entries then count from 0. The run goes on as if they still stood there, and an audit still knows them. So a bus runs for as
    /// long as it likes in the same memory.
    ///
    /// ```
    /// use pbfdl::{Bus, Entry, Params, Tap};
    ///
    /// let params = Params { tsl: 100, tid1: 37, tid2: 60, tsdr: 11, lag: 0, ttr: 10_000, gap: 10, hsa: 5, retries: 1, ttd: 0 };
    /// let mut bus = Bus::within(&params, &[Tap::master(1), Tap::master(2)], 1_000_000_000_000)?;
    /// bus.start(0)?;
    /// bus.start(1)?;
    /// let mut tokens = 0;
    /// for step in 1..101 {
    ///     bus.run(step * 10_000)?;
    ///     tokens += bus.take_settled()?.iter().filter(|entry| matches!(entry, Entry::Sent { octets, .. } if octets.len() == 3)).count();
    /// }
    /// assert_eq!(tokens, 14_177);
    /// # Ok::<(), pbfdl::Fault>(())
    /// ```
    ///
    /// # Errors
    /// `NoMemory`, and nothing is let go then.
    pub fn take_settled(&mut self) -> Result<Vec<Entry>, Fault> {
        let mut count = 0;
        let _ = unsafe { sys::fdl_bus_over(self.at(), &mut count) };
        let settled = (0..count).filter_map(|index| self.entry(index)).collect();
        check(unsafe { sys::fdl_bus_let_go(self.at(), &mut count) })?;
        Ok(settled)
    }

    /// What has been on the bus so far, and was not let go.
    pub fn trace(&self) -> Trace<'_> {
        Trace::new(self)
    }

    /// Judges all events so far: whether the premises were kept, and whether each token and request is legal. The index of an
    /// illegal entry is that in the whole trace, with those counted that were let go. It takes time in proportion to those that were
    /// not.
    ///
    /// # Errors
    /// `NoMemory`.
    pub fn audit(&self) -> Result<Audit, Fault> {
        let mut found = sys::fdl_audit { premise: 0, moment: 0, illegal: false, entry: 0 };
        check(unsafe { sys::fdl_bus_audit(self.at(), &mut found) })?;
        Ok(Audit::of(&found))
    }

    pub(crate) fn entries(&self) -> usize {
        let mut count = 0;
        let _ = unsafe { sys::fdl_bus_entries(self.at(), &mut count) };
        count
    }

    pub(crate) fn entry(&self, index: usize) -> Option<Entry> {
        let (octets, heard) = ([0; sys::FDL_TELEGRAM_MAX], [0; sys::FDL_MOST_TAPS]);
        let mut found = sys::fdl_entry { begin: 0, end: 0, noise: false, tap: 0, count: 0, octets, heard };
        check(unsafe { sys::fdl_bus_entry(self.at(), index, &mut found) }).ok()?;
        Some(Entry::of(&found, self.taps))
    }
}

impl Drop for Bus {
    fn drop(&mut self) {
        unsafe { sys::fdl_bus_free(self.at()) }
    }
}

impl fmt::Debug for Bus {
    fn fmt(&self, f: &mut fmt::Formatter<'_>) -> fmt::Result {
        f.debug_struct("Bus").field("taps", &self.taps).field("now", &self.now()).finish()
    }
}
