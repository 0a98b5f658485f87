//! A station at a line that the caller drives, and what can be read of a station.

use alloc::vec::Vec;
use core::cell::UnsafeCell;
use core::fmt;
use core::ptr;

use crate::faults::{check, Fault};
use crate::params::Params;
use crate::sys;

/// The last moment of a station, in bit times.
pub const LAST_MOMENT: u64 = 1 << 61;
/// The last address of a station.
pub const LAST_ADDRESS: u8 = 126;
/// How many unread marks a station has room for, where nothing else is said.
const MOST_ROOM: usize = 64;
/// The address of all stations, for a request by [`Service::Sdn`].
pub const ALL_STATIONS: u8 = 127;

/// The phases of a station (IEC 61158-4-3, states of the data link layer of a master).
#[derive(Clone, Copy, Debug, PartialEq, Eq, Hash)]
#[allow(missing_docs)]
pub enum Phase {
    Offline = 0,
    PassiveIdle = 1,
    Listening = 2,
    Idle = 3,
    Claim = 4,
    Use = 5,
    AwaitData = 6,
    AwaitStatus = 7,
    Pass = 8,
    Checking = 9,
}

impl Phase {
    pub(crate) fn of(number: u32) -> Phase {
        match number {
            1 => Phase::PassiveIdle,
            2 => Phase::Listening,
            3 => Phase::Idle,
            4 => Phase::Claim,
            5 => Phase::Use,
            6 => Phase::AwaitData,
            7 => Phase::AwaitStatus,
            8 => Phase::Pass,
            9 => Phase::Checking,
            _ => Phase::Offline,
        }
    }
}

/// The services (IEC 61158-4-3, data link service).
#[derive(Clone, Copy, Debug, PartialEq, Eq, Hash)]
pub enum Service {
    /// Send data with acknowledge.
    Sda = 0,
    /// Send data with no acknowledge.
    Sdn = 1,
    /// Send and request data.
    Srd = 2,
}

/// The priority of a request.
#[derive(Clone, Copy, Debug, PartialEq, Eq, Hash)]
#[allow(missing_docs)]
pub enum Priority {
    Low,
    High,
}

/// What came of a request, with the station that was asked.
#[derive(Clone, Debug, PartialEq, Eq, Hash)]
pub enum Outcome {
    /// The data was taken, and none came back.
    Acked(u8),
    /// Data came back, at most 246 octets.
    Data(u8, Vec<u8>),
    /// The station has no resource, or no such service.
    NoResource(u8),
    /// No reply came, and no retry is left.
    NoAnswer(u8),
}

impl Outcome {
    /// The station that was asked, 0 to 126.
    pub fn station(&self) -> u8 {
        match self {
            Outcome::Acked(station) | Outcome::Data(station, _) | Outcome::NoResource(station) | Outcome::NoAnswer(station) => {
                *station
            }
        }
    }

    pub(crate) fn of(found: &sys::fdl_outcome) -> Option<Outcome> {
        match found.kind {
            1 => Some(Outcome::Acked(found.station)),
            2 => Some(Outcome::Data(found.station, found.data[..usize::from(found.count)].to_vec())),
            3 => Some(Outcome::NoResource(found.station)),
            4 => Some(Outcome::NoAnswer(found.station)),
            _ => None,
        }
    }
}

/// Room for an outcome.
pub(crate) const NO_OUTCOME: sys::fdl_outcome = sys::fdl_outcome { kind: 0, station: 0, count: 0, data: [0; sys::FDL_MOST_DATA] };

/// A request of another station that a station has executed.
#[derive(Clone, Debug, PartialEq, Eq, Hash)]
pub struct Indication {
    /// The station that asks, 0 to 126.
    pub source: u8,
    /// The service.
    pub service: Service,
    /// Its priority.
    pub priority: Priority,
    /// The data that it brings, at most 246 octets.
    pub data: Vec<u8>,
}

impl Indication {
    /// What C writes an indication to.
    pub(crate) fn nothing() -> sys::fdl_indication {
        sys::fdl_indication { source: 0, service: 0, high: false, count: 0, data: [0; sys::FDL_MOST_DATA] }
    }

    pub(crate) fn of(found: &sys::fdl_indication) -> Indication {
        let service = match found.service {
            0 => Service::Sda,
            1 => Service::Sdn,
            _ => Service::Srd,
        };
        let priority = if found.high { Priority::High } else { Priority::Low };
        Indication { source: found.source, service, priority, data: found.data[..usize::from(found.count)].to_vec() }
    }
}

/// A station at a line of the caller's own, real or simulated. It does not run before [`Station::start`].
///
/// The caller tells it what others do on the line ([`begin`](Station::begin), [`end`](Station::end), [`noise`](Station::noise)),
/// takes its turn when it is [`due`](Station::due), and puts what [`turn`](Station::turn) returns on the line at once. A moment is a
/// number of bit times since the caller's clock began, 0 to 2^61; an octet takes 11. `docs/DRIVER.md` says what a driver of a real
/// line owes.
///
/// ```
/// use pbfdl::{Params, Station};
///
/// let params = Params { tsl: 100, tid1: 37, tid2: 60, tsdr: 11, lag: 0, ttr: 10_000, gap: 10, hsa: 5, retries: 1, ttd: 0 };
/// let mut master = Station::master(&params, 1, &[])?;
/// master.start(0)?;
/// assert_eq!(master.due(), Some(800));
/// assert_eq!(master.turn(800)?, [0xdc, 1, 1]);
/// # Ok::<(), pbfdl::Fault>(())
/// ```
///
/// A station stays on the thread that made it:
///
/// ```compile_fail
/// fn sends<T: Send>() {}
/// sends::<pbfdl::Station>();
/// ```
pub struct Station {
    // Calls that read take the station out of its port and put it back. So the pointer is changed behind a shared reference, on
    // one thread: the cell and the raw pointer keep the type from being Sync and Send.
    port: UnsafeCell<sys::fdl_port>,
}

impl Station {
    /// A master, and what it replies to a request for data, at most 246 octets. It has room for 64 unread marks, and takes about
    /// 80 KB; no later call takes memory of the library.
    ///
    /// # Errors
    /// The first fault of the parameters; `BadStation` for an address over `params.hsa`; `LongData`; `NoMemory`.
    pub fn master(params: &Params, address: u8, reply: &[u8]) -> Result<Station, Fault> {
        Station::new(MOST_ROOM, params, address, true, reply)
    }

    /// A passive station, and what it replies to a request for data, at most 246 octets. Its room is that of
    /// [`master`](Station::master).
    ///
    /// # Errors
    /// The first fault of the parameters; `BadStation` for an address over 126; `LongData`; `NoMemory`.
    pub fn passive(params: &Params, address: u8, reply: &[u8]) -> Result<Station, Fault> {
        Station::new(MOST_ROOM, params, address, false, reply)
    }

    /// A master with room for so many unread marks, 2 to 64. It takes about 11 KB, and 1.1 KB for each mark.
    ///
    /// # Errors
    /// `BadRoom`, and then those of [`master`](Station::master).
    pub fn master_with_room(room: usize, params: &Params, address: u8, reply: &[u8]) -> Result<Station, Fault> {
        Station::new(room, params, address, true, reply)
    }

    /// A passive station with room for so many unread marks, 2 to 64. It takes as much as such a master.
    ///
    /// # Errors
    /// `BadRoom`, and then those of [`passive`](Station::passive).
    pub fn passive_with_room(room: usize, params: &Params, address: u8, reply: &[u8]) -> Result<Station, Fault> {
        Station::new(room, params, address, false, reply)
    }

    fn new(room: usize, params: &Params, address: u8, master: bool, reply: &[u8]) -> Result<Station, Fault> {
        let station = Station { port: UnsafeCell::new(sys::fdl_port { at: ptr::null_mut() }) };
        let (at, count) = (reply.as_ptr(), reply.len());
        // SAFETY: the port is empty, and the array has as many octets as is said.
        check(unsafe { sys::fdl_port_new_with_room(station.port(), room, params, address, master, at, count) })?;
        Ok(station)
    }

    fn port(&self) -> *mut sys::fdl_port {
        self.port.get()
    }

    /// It starts: a master listens for the ring, a passive station waits for requests. All that it knew and heard is forgotten, and
    /// requests that waited.
    ///
    /// # Errors
    /// `TooLate`, `Backwards`.
    pub fn start(&mut self, now: u64) -> Result<(), Fault> {
        // SAFETY: the port is this station's own; so in all calls below, which keep no pointer.
        check(unsafe { sys::fdl_port_start(self.port(), now) })
    }

    /// It stops: it says nothing more, and drops its unread marks and a reply that it has not sent yet.
    pub fn stop(&mut self) {
        let _ = unsafe { sys::fdl_port_stop(self.port()) };
    }

    /// A request with at most 246 octets of data waits behind the others of its priority, for the station with the address `da`, 0 to
    /// 126, or for all ([`ALL_STATIONS`], [`Service::Sdn`] alone). A master sends it when it has the token; a start forgets it.
    ///
    /// # Errors
    /// `LongData`, `BadStation`, `QueueFull` (16 wait).
    pub fn push(&mut self, da: u8, service: Service, priority: Priority, data: &[u8]) -> Result<(), Fault> {
        let high = priority == Priority::High;
        check(unsafe { sys::fdl_port_push(self.port(), da, service as u8, high, data.as_ptr(), data.len()) })
    }

    /// Activity of others has begun on the line at the moment `at`, which is told at the moment `seen`.
    ///
    /// # Errors
    /// `TooLate`; `Backwards` where `seen` is before an earlier call, or `at` before an earlier mark's own moment, the last turn or
    /// the start; `Ahead` where `at` is after `seen`; `InboxFull` (there is no room for a mark more).
    pub fn begin(&mut self, at: u64, seen: u64) -> Result<(), Fault> {
        check(unsafe { sys::fdl_port_begin(self.port(), at, seen) })
    }

    /// Activity of others has ended, and has brought octets that all came good, at most 255.
    ///
    /// # Errors
    /// Those of [`Station::begin`], and `TooLong`.
    pub fn end(&mut self, at: u64, seen: u64, octets: &[u8]) -> Result<(), Fault> {
        check(unsafe { sys::fdl_port_end_good(self.port(), at, seen, octets.as_ptr(), octets.len()) })
    }

    /// The same with at most 255 characters: octets, and numbers over 255 ([`DAMAGED`](crate::DAMAGED)) for damaged ones.
    ///
    /// # Errors
    /// Those of [`Station::end`].
    pub fn end_with(&mut self, at: u64, seen: u64, characters: &[u16]) -> Result<(), Fault> {
        check(unsafe { sys::fdl_port_end(self.port(), at, seen, characters.as_ptr(), characters.len()) })
    }

    /// Activity of others has ended, and was no telegram: one damaged character.
    ///
    /// # Errors
    /// Those of [`Station::begin`].
    pub fn noise(&mut self, at: u64, seen: u64) -> Result<(), Fault> {
        check(unsafe { sys::fdl_port_noise(self.port(), at, seen) })
    }

    /// When it has to take its turn, in bit times; `None` where nothing is to come. A new mark or request may change it. The turn may
    /// be taken up to `lag` bit times later.
    pub fn due(&self) -> Option<u64> {
        let mut at = sys::FDL_NEVER;
        let _ = unsafe { sys::fdl_port_due(self.port(), &mut at) };
        Some(at).filter(|&at| at != sys::FDL_NEVER)
    }

    /// It takes its turn: it reads its unread marks and timers, and sends a telegram if the moment for it has come.
    ///
    /// Returns the octets, at most 255, or none. They are on the line from `now` on, 11 bit times an octet, without a pause.
    ///
    /// # Errors
    /// `TooLate`, `Backwards`.
    pub fn turn(&mut self, now: u64) -> Result<Vec<u8>, Fault> {
        let (mut out, mut count) = ([0; sys::FDL_TELEGRAM_MAX], 0);
        check(unsafe { sys::fdl_port_turn(self.port(), now, out.as_mut_ptr(), out.len(), &mut count) })?;
        Ok(out[..count].to_vec())
    }

    /// It replies to the next request for data with at most 246 octets; with none, that it has no data. A repeat of the last request
    /// still gets the reply that was sent.
    ///
    /// # Errors
    /// `LongData`.
    pub fn set_reply(&mut self, reply: &[u8]) -> Result<(), Fault> {
        check(unsafe { sys::fdl_port_set_reply(self.port(), reply.as_ptr(), reply.len()) })
    }

    /// The requests of others that it executed in its last turn, in order, without repeats. A start forgets them.
    pub fn indications(&self) -> Vec<Indication> {
        let mut count = 0;
        let _ = unsafe { sys::fdl_port_indications(self.port(), &mut count) };
        (0..count).filter_map(|index| self.indication(index)).collect()
    }

    fn indication(&self, index: usize) -> Option<Indication> {
        let mut found = Indication::nothing();
        check(unsafe { sys::fdl_port_indication(self.port(), index, &mut found) }).ok()?;
        Some(Indication::of(&found))
    }

    /// Its phase.
    pub fn phase(&self) -> Phase {
        let mut phase = 0;
        let _ = unsafe { sys::fdl_port_phase(self.port(), &mut phase) };
        Phase::of(phase)
    }

    /// Whether an address, 0 to 126, is in its list of active stations.
    ///
    /// # Errors
    /// `BadStation`.
    pub fn is_active(&self, address: u8) -> Result<bool, Fault> {
        let mut active = false;
        check(unsafe { sys::fdl_port_is_active(self.port(), address, &mut active) })?;
        Ok(active)
    }

    /// How many requests of others it has executed since its start, without repeats.
    pub fn executed(&self) -> u64 {
        let mut count = 0;
        let _ = unsafe { sys::fdl_port_executed(self.port(), &mut count) };
        count
    }

    /// What came of its last request that had an outcome; `None` where none has had one since the start.
    pub fn outcome(&self) -> Option<Outcome> {
        let mut found = NO_OUTCOME;
        let _ = unsafe { sys::fdl_port_outcome(self.port(), &mut found) };
        Outcome::of(&found)
    }
}

impl Drop for Station {
    fn drop(&mut self) {
        unsafe { sys::fdl_port_free(self.port()) }
    }
}

impl fmt::Debug for Station {
    fn fmt(&self, f: &mut fmt::Formatter<'_>) -> fmt::Result {
        f.debug_struct("Station").field("phase", &self.phase()).field("due", &self.due()).finish()
    }
}
