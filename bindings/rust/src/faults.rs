//! Why a call is refused.

use core::fmt;

/// The faults by name: the code of `pbfdl.h`, and what it says.
macro_rules! faults {
    ($($name:ident = $code:literal, $text:literal;)*) => {
        /// Why a call is refused. A refused call changes nothing, except where its description says so.
        #[derive(Clone, Copy, Debug, PartialEq, Eq, Hash)]
        #[non_exhaustive]
        pub enum Fault {
            $(#[doc = concat!($text, ".")] $name,)*
            /// A code that this version of the crate does not know.
            Unknown(u32),
        }

        impl Fault {
            /// Its code in `pbfdl.h`.
            pub const fn code(self) -> u32 {
                match self {
                    $(Fault::$name => $code,)*
                    Fault::Unknown(code) => code,
                }
            }

            /// The fault with a code of `pbfdl.h`; `None` for 0.
            pub const fn from_code(code: u32) -> Option<Fault> {
                match code {
                    0 => None,
                    $($code => Some(Fault::$name),)*
                    code => Some(Fault::Unknown(code)),
                }
            }
        }

        impl fmt::Display for Fault {
            fn fmt(&self, f: &mut fmt::Formatter<'_>) -> fmt::Result {
                match self {
                    $(Fault::$name => f.write_str($text),)*
                    Fault::Unknown(code) => write!(f, "unknown code {code}"),
                }
            }
        }
    };
}

faults! {
    Empty = 1, "there is no octet";
    Damaged = 2, "a character is damaged";
    BadStart = 3, "the first octet starts no telegram";
    Truncated = 4, "there are fewer octets than the telegram has";
    BadLength = 5, "the length octet is not 4 to 249";
    LengthsDiffer = 6, "the length octet and its repetition differ";
    BadSecondStart = 7, "the start delimiter is not repeated";
    BadAddress = 8, "a token's address is over 126, or another telegram's source address is 127";
    BadControl = 9, "bit 7 of the control octet is set";
    BadCheck = 10, "the check octet is not the sum";
    BadEnd = 11, "the end delimiter is missing";
    Trailing = 12, "octets follow the end";
    ParamSlot = 21, "tsl is not 100 to 16383";
    ParamIdleShort = 22, "tid1 is under 33";
    ParamIdleOrder = 23, "tid2 is under tid1";
    ParamReplyShort = 24, "tsdr is under 11";
    ParamRotation = 25, "ttr is not 256 to 16777215";
    ParamGapFactor = 26, "gap is not 1 to 100";
    ParamHighest = 27, "hsa is not 2 to 126";
    ParamRetries = 28, "retries is over 7";
    ParamTakeLate = 29, "tid2 + lag + 2 * ttd is not under tsl";
    ParamReplyLate = 30, "tsdr + lag + 2 * ttd is not under tsl";
    TooLate = 41, "the moment of the call is past 2^61";
    Backwards = 42, "the moment is before the clock, or before one that was named earlier";
    Ahead = 43, "the moment of a begin or an end is after that of the call";
    TooLong = 44, "there are more than 255 characters";
    InboxFull = 45, "as many marks are unread as there is room for: take the turn, then repeat the mark";
    QueueFull = 46, "16 requests of the priority wait: let the bus run, then queue again";
    NoPort = 61, "the port is empty";
    PortInUse = 62, "the port is not empty";
    NoMemory = 63, "memory was refused";
    BadStation = 64, "an address is out of its range: 0 to hsa for a master, else 0 to 126; 127 for a request by SDN alone";
    BadService = 65, "there is no such service";
    LongData = 66, "there are more than 246 octets of data";
    BadKind = 67, "there is no such kind of telegram";
    NoRoom = 68, "the array is too short";
    NoIndication = 69, "the last turn executed no such request";
    BadRoom = 70, "the room of a station is not 2 to 64 marks";
    NoTaps = 71, "there is no tap";
    TooManyTaps = 72, "there are more than 127 taps";
    NoBus = 73, "the bus is empty";
    BusInUse = 74, "the bus is not empty";
    NoEntry = 75, "the trace has no such entry";
    NoSuchTap = 81, "there is no tap with this index: Bus::taps says how many there are";
    Running = 82, "the tap runs, or a telegram of its own is still on the bus: stop it, or run to the end of that";
    NotRunning = 83, "the tap does not run: start it; or a request was queued at a passive station: only a master sends them";
    NothingInAir = 84, "nothing is on the bus now that can be damaged or lost so: run until such a telegram is on it";
    ZeroTime = 85, "the time is 0 bit times";
    TooFar = 86, "the time leads past the next end on the bus (Bus::next_change), or noise lasts over 4,294,967,295 bit times";
    ClockFull = 87, "the clock would be over 1,000,000,000,000";
    TraceFull = 90, "the trace has as many entries as the bus was made for";
    NoMonitor = 91, "the monitor is empty";
    MonitorInUse = 92, "the monitor is not empty";
    BadForm = 93, "there is no such form of a capture or of a summary";
    Finished = 94, "the capture has ended, or memory was refused in the middle of it";
}

#[cfg(feature = "std")]
impl std::error::Error for Fault {}

/// The answer of a call with a code.
pub(crate) fn check(code: u32) -> Result<(), Fault> {
    match Fault::from_code(code) {
        None => Ok(()),
        Some(fault) => Err(fault),
    }
}
