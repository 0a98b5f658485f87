//! Bus parameters.

use crate::faults::{check, Fault};
use crate::sys;

/// What all stations of a bus share (IEC 61158-4-3, timing parameters). Times in bit times.
///
/// ```
/// use pbfdl::{Fault, Params};
///
/// let params = Params { tsl: 100, tid1: 37, tid2: 60, tsdr: 11, lag: 0, ttr: 10_000, gap: 10, hsa: 5, retries: 1, ttd: 0 };
/// assert_eq!(params.check(), Ok(()));
/// assert_eq!(Params { tid1: 32, ..params }.check(), Err(Fault::ParamIdleShort));
/// ```
#[repr(C)]
#[derive(Clone, Copy, Debug, PartialEq, Eq, Hash)]
pub struct Params {
    /// Slot time, 100 to 16383: how long a station waits for a reply.
    pub tsl: u32,
    /// Idle time before the next telegram, 33 and more.
    pub tid1: u32,
    /// The same after a request that nobody answers, `tid1` and more.
    pub tid2: u32,
    /// How long a station takes to reply, 11 and more.
    pub tsdr: u32,
    /// How late a station may take its turn.
    pub lag: u32,
    /// Target rotation time of the token, 256 to 16777215.
    pub ttr: u32,
    /// GAP factor, 1 to 100: target rotation times from one search for new masters to the next.
    pub gap: u32,
    /// Highest address that a master may have, 2 to 126.
    pub hsa: u32,
    /// How often a request is sent again, 0 to 7.
    pub retries: u32,
    /// Cable delay: how much later the others hear a telegram.
    pub ttd: u32,
}

impl Params {
    /// Whether a bus can have them.
    ///
    /// # Errors
    /// The first fault that applies, `ParamSlot` to `ParamReplyLate`.
    pub fn check(&self) -> Result<(), Fault> {
        // SAFETY: the pointer is to parameters, which are read during the call.
        check(unsafe { sys::fdl_params_fault(self) })
    }
}
