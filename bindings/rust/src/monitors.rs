//! A monitor: it hears a capture as it comes, judges it, and counts.

use alloc::string::String;
use alloc::vec::Vec;
use core::cell::UnsafeCell;
use core::fmt;
use core::ptr;

use crate::faults::{check, Fault};
use crate::params::Params;
use crate::sys;

/// How much text one call takes.
const ROOM: usize = 4096;

/// The form of a capture.
#[derive(Clone, Copy, Debug, Default, PartialEq, Eq, Hash)]
pub enum Form {
    /// Lines of text, a burst each.
    #[default]
    Lines = 0,
    /// Octets without boundaries.
    Raw = 1,
    /// pcap or pcapng, link types 257 and 147.
    Pcap = 2,
}

/// The form of a summary alone.
#[derive(Clone, Copy, Debug, PartialEq, Eq, Hash)]
pub enum Summary {
    /// Lines for people.
    Text = 1,
    /// A JSON object.
    Json = 2,
    /// A table of the stations.
    Csv = 3,
}

/// What is asked of a monitor; the default is lines, all classes of alarms, and a line for each burst.
#[derive(Clone, Copy, Debug, PartialEq, Eq, Hash)]
pub struct MonitorOptions {
    /// The form of the capture.
    pub form: Form,
    /// Alarms that rest on the order of telegrams.
    pub legality: bool,
    /// Alarms that rest on a token that was lost.
    pub loss: bool,
    /// Alarms that rest on when the token was taken.
    pub timing: bool,
    /// A summary each time that so many bit times have passed.
    pub every: Option<u64>,
    /// A summary of this form alone, in place of a line for each burst and a summary.
    pub summary: Option<Summary>,
    /// Bits a second; without it packets have no moments.
    pub baud: Option<u32>,
    /// How wrong the difference of two moments may be, in bit times.
    pub slack: u32,
}

impl Default for MonitorOptions {
    fn default() -> MonitorOptions {
        MonitorOptions {
            form: Form::Lines,
            legality: true,
            loss: true,
            timing: true,
            every: None,
            summary: None,
            baud: None,
            slack: 0,
        }
    }
}

/// What a station has shown itself to be.
#[derive(Clone, Copy, Debug, PartialEq, Eq, Hash)]
pub enum Role {
    /// It has neither sent a token nor replied with its type.
    Unknown = 0,
    /// It has replied that it only answers.
    Passive = 1,
    /// It has replied that it is a master and not ready to enter the ring.
    NotReady = 2,
    /// It has replied that it is a master and ready to enter the ring.
    Ready = 3,
    /// It has sent a token, or replied that it is in the ring.
    InRing = 4,
}

impl Role {
    fn of(number: u8) -> Role {
        match number {
            1 => Role::Passive,
            2 => Role::NotReady,
            3 => Role::Ready,
            4 => Role::InRing,
            _ => Role::Unknown,
        }
    }
}

pub use crate::sys::fdl_spread as Spread;

/// What is counted for the bus. Counts saturate at 2^64 - 1; moments and durations are in bit times.
#[derive(Clone, Copy, Debug, PartialEq, Eq, Hash)]
pub struct Traffic {
    /// Whether the list of active stations is complete: two equal rotations of the token were heard.
    pub complete: bool,
    /// The begin of the first burst with a moment, and the end of the last one.
    pub span: Option<(u64, u64)>,
    /// How long there was a burst, in sum.
    pub busy: u64,
    /// How many bursts there were.
    pub bursts: u64,
    /// How many of them spelled no telegram, after a silence that no token in use leaves.
    pub after_loss: u64,
    /// In the slot of a token.
    pub taking: u64,
    /// Where a reply was due.
    pub replying: u64,
    /// Anywhere else.
    pub other: u64,
    /// The longest silence between two bursts.
    pub longest_silence: u64,
    /// How many alarms were raised.
    pub alarms: u64,
    /// How many lines, packets or runs of octets were refused.
    pub refused: u64,
}

/// What is counted for a station. Counts saturate at 2^64 - 1; moments and durations are in bit times.
#[derive(Clone, Copy, Debug, PartialEq, Eq, Hash)]
pub struct StationCounts {
    /// What it has shown itself to be.
    pub role: Role,
    /// Whether it is in the list of active stations.
    pub active: bool,
    /// The end of its last telegram with a moment.
    pub last_heard: Option<u64>,
    /// How many telegrams it has sent, but replies that nobody asked for.
    pub telegrams: u64,
    /// How many tokens.
    pub tokens: u64,
    /// How many of them were the first of its claims.
    pub claims: u64,
    /// How many requests.
    pub requests: u64,
    /// How many of them asked for a status.
    pub polls: u64,
    /// How many tokens and requests had the octets of the one directly before.
    pub repeats: u64,
    /// How many of its requests nothing answered.
    pub unanswered: u64,
    /// How many were answered with damage.
    pub damaged_answers: u64,
    /// How often others have asked it for its status.
    pub polled: u64,
    /// How many tokens to it were sent again after their slot.
    pub tokens_not_taken: u64,
    /// The time between two receipts of the token.
    pub rotation: Spread,
    /// From the end of a token to it to its first telegram.
    pub taking: Spread,
    /// From the end of a request to it to its reply.
    pub replying: Spread,
}

/// A monitor of a bus. It says what `ringplay monitor` prints.
///
/// ```
/// use pbfdl::{Monitor, MonitorOptions, Params};
///
/// let params = Params { tsl: 100, tid1: 37, tid2: 60, tsdr: 11, lag: 0, ttr: 10_000, gap: 10, hsa: 5, retries: 1, ttd: 0 };
/// let mut monitor = Monitor::new(Some(&params), &MonitorOptions::default())?;
/// assert_eq!(monitor.feed(b"800 833 dc0101\n870 903 dc0")?, "800 833 token da=1 sa=1 | token to itself | holder 1\n");
/// assert_eq!(monitor.feed(b"101\n")?, "870 903 token da=1 sa=1 | token to itself | holder 1\n");
/// assert!(monitor.finish()?.starts_with("bus: bursts 2"));
/// # Ok::<(), pbfdl::Fault>(())
/// ```
///
/// A monitor stays on the thread that made it:
///
/// ```compile_fail
/// fn sends<T: Send>() {}
/// sends::<pbfdl::Monitor>();
/// ```
pub struct Monitor {
    // As in Station: calls that read take the monitor out and put it back, on one thread.
    monitor: UnsafeCell<sys::fdl_monitor>,
}

impl Monitor {
    /// A monitor that has heard nothing. With parameters of the bus it judges; without them it decodes and counts alone.
    ///
    /// # Errors
    /// The first fault of the parameters; `NoMemory`.
    pub fn new(params: Option<&Params>, options: &MonitorOptions) -> Result<Monitor, Fault> {
        let given = sys::fdl_monitor_options {
            form: options.form as u8,
            summary: options.summary.map_or(0, |it| it as u8),
            judges: params.is_some(),
            legality: options.legality,
            loss: options.loss,
            timing: options.timing,
            every: options.every.unwrap_or(0),
            baud: options.baud.unwrap_or(0),
            slack: options.slack,
        };
        let unread = Params { tsl: 0, tid1: 0, tid2: 0, tsdr: 0, lag: 0, ttr: 0, gap: 0, hsa: 0, retries: 0, ttd: 0 };
        let monitor = Monitor { monitor: UnsafeCell::new(sys::fdl_monitor { at: ptr::null_mut() }) };
        // SAFETY: the monitor is empty.
        check(unsafe { sys::fdl_monitor_new(monitor.at(), &given, params.unwrap_or(&unread)) })?;
        Ok(monitor)
    }

    fn at(&self) -> *mut sys::fdl_monitor {
        self.monitor.get()
    }

    /// The next octets of the capture, cut anywhere. Returns the lines for what they complete.
    ///
    /// # Errors
    /// `Finished` after the end of the capture; `NoMemory`, which ends it.
    pub fn feed(&mut self, octets: &[u8]) -> Result<String, Fault> {
        // SAFETY: the monitor is this value's own; so in all calls below, which keep no pointer.
        check(unsafe { sys::fdl_monitor_feed(self.at(), octets.as_ptr(), octets.len()) })?;
        self.said()
    }

    /// The capture ends. Returns the lines for what is left of it, and the summary.
    ///
    /// # Errors
    /// `Finished`, `NoMemory`.
    pub fn finish(&mut self) -> Result<String, Fault> {
        check(unsafe { sys::fdl_monitor_finish(self.at()) })?;
        self.said()
    }

    /// What it has said and nobody has taken.
    fn said(&mut self) -> Result<String, Fault> {
        let (mut out, mut said) = ([0; ROOM], Vec::new());
        loop {
            let mut count = 0;
            check(unsafe { sys::fdl_monitor_next(self.at(), out.as_mut_ptr(), ROOM, &mut count) })?;
            if count == 0 {
                return Ok(String::from_utf8_lossy(&said).into_owned());
            }
            said.extend_from_slice(&out[..count]);
        }
    }

    /// Whether input was refused or an alarm raised.
    pub fn is_refused(&self) -> bool {
        let mut refused = false;
        let _ = unsafe { sys::fdl_monitor_is_refused(self.at(), &mut refused) };
        refused
    }

    /// What is counted for the bus.
    pub fn traffic(&self) -> Traffic {
        let mut told = sys::fdl_traffic::default();
        let _ = unsafe { sys::fdl_monitor_traffic(self.at(), &mut told) };
        Traffic {
            complete: told.complete,
            span: Some((told.first, told.last)).filter(|_| told.timed),
            busy: told.busy,
            bursts: told.bursts,
            after_loss: told.after_loss,
            taking: told.taking,
            replying: told.replying,
            other: told.other,
            longest_silence: told.longest_silence,
            alarms: told.alarms,
            refused: told.refused,
        }
    }

    /// What is counted for the station with an address, 0 to 126.
    ///
    /// # Errors
    /// `BadStation`.
    pub fn station(&self, address: u8) -> Result<StationCounts, Fault> {
        let mut told = sys::fdl_station_counts::default();
        check(unsafe { sys::fdl_monitor_station(self.at(), address, &mut told) })?;
        Ok(StationCounts {
            role: Role::of(told.role),
            active: told.active,
            last_heard: Some(told.last_heard).filter(|_| told.timed),
            telegrams: told.telegrams,
            tokens: told.tokens,
            claims: told.claims,
            requests: told.requests,
            polls: told.polls,
            repeats: told.repeats,
            unanswered: told.unanswered,
            damaged_answers: told.damaged_answers,
            polled: told.polled,
            tokens_not_taken: told.tokens_not_taken,
            rotation: told.rotation,
            taking: told.taking,
            replying: told.replying,
        })
    }
}

impl Drop for Monitor {
    fn drop(&mut self) {
        unsafe { sys::fdl_monitor_free(self.at()) }
    }
}

impl fmt::Debug for Monitor {
    fn fmt(&self, f: &mut fmt::Formatter<'_>) -> fmt::Result {
        f.debug_struct("Monitor").field("bursts", &self.traffic().bursts).finish()
    }
}
