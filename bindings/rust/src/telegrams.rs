//! Telegrams, and a receiver that reads them character by character.

use alloc::vec::Vec;
use core::fmt;

use crate::faults::{check, Fault};
use crate::sys;

/// A character that came damaged; an octet that came good is 0 to 255.
pub const DAMAGED: u16 = 256;

/// The kinds of telegrams.
#[derive(Clone, Copy, Debug, PartialEq, Eq, Hash)]
pub enum Kind {
    /// Without data.
    Sd1 = 1,
    /// With data of variable length, 1 to 246 octets.
    Sd2 = 2,
    /// With 8 octets of data.
    Sd3 = 3,
    /// Token.
    Sd4 = 4,
    /// Short acknowledgement.
    Sc = 5,
}

/// A telegram. Fields that its kind does not have are 0, and not read.
///
/// `da` and `sa` are the address octets as they are sent: bit 7 says that the data begin with an address extension.
///
/// ```
/// use pbfdl::Telegram;
///
/// let token = Telegram::token(2, 1);
/// assert_eq!(token.octets()?, [0xdc, 2, 1]);
/// assert_eq!(Telegram::parse(&[0xdc, 2, 1])?, token);
/// # Ok::<(), pbfdl::Fault>(())
/// ```
#[derive(Clone, Debug, PartialEq, Eq, Hash)]
pub struct Telegram {
    /// Its kind.
    pub kind: Kind,
    /// Destination address.
    pub da: u8,
    /// Source address.
    pub sa: u8,
    /// Control octet, 0 to 127.
    pub fc: u8,
    /// The data, at most 246 octets.
    pub unit: Vec<u8>,
}

impl Telegram {
    /// A token from station `sa` to station `da`, each 0 to 126.
    pub fn token(da: u8, sa: u8) -> Telegram {
        Telegram { kind: Kind::Sd4, da, sa, fc: 0, unit: Vec::new() }
    }

    /// The short acknowledgement.
    pub fn short_ack() -> Telegram {
        Telegram { kind: Kind::Sc, da: 0, sa: 0, fc: 0, unit: Vec::new() }
    }

    /// A telegram with 0 to 246 octets of data: 0 give [`Kind::Sd1`], 8 [`Kind::Sd3`], others [`Kind::Sd2`].
    pub fn with_data(da: u8, sa: u8, fc: u8, unit: &[u8]) -> Telegram {
        let kind = match unit.len() {
            0 => Kind::Sd1,
            8 => Kind::Sd3,
            _ => Kind::Sd2,
        };
        Telegram { kind, da, sa, fc, unit: unit.to_vec() }
    }

    /// The telegram that octets spell, as one burst brought them.
    ///
    /// # Errors
    /// The first fault of the octets: `Empty`, or `BadStart` to `Trailing`.
    pub fn parse(octets: &[u8]) -> Result<Telegram, Fault> {
        let mut found = sys::fdl_telegram::default();
        // SAFETY: the array has as many octets as is said, and `found` is written during the call.
        check(unsafe { sys::fdl_parse(octets.as_ptr(), octets.len(), &mut found) })?;
        Telegram::of(&found)
    }

    /// Its octets, at most 255; [`Telegram::parse`] reads the telegram from them.
    ///
    /// # Errors
    /// `BadKind` for over 246 octets of data, else the first fault of its octets, as `BadAddress`, `BadControl`, or `BadLength`
    /// for [`Kind::Sd2`] without data.
    pub fn octets(&self) -> Result<Vec<u8>, Fault> {
        let mut given = sys::fdl_telegram { kind: self.kind as u8, da: self.da, sa: self.sa, fc: self.fc, ..Default::default() };
        given.unit.get_mut(..self.unit.len()).ok_or(Fault::BadKind)?.copy_from_slice(&self.unit);
        given.count = self.unit.len() as u8;
        let (mut out, mut count) = ([0; sys::FDL_TELEGRAM_MAX], 0);
        // SAFETY: `out` has the room that is said, and all pointers are to variables of this function.
        check(unsafe { sys::fdl_write(&given, out.as_mut_ptr(), out.len(), &mut count) })?;
        Ok(out[..count].to_vec())
    }

    fn of(found: &sys::fdl_telegram) -> Result<Telegram, Fault> {
        let kind = match found.kind {
            1 => Kind::Sd1,
            2 => Kind::Sd2,
            3 => Kind::Sd3,
            4 => Kind::Sd4,
            5 => Kind::Sc,
            _ => return Err(Fault::BadKind),
        };
        let unit = found.unit[..usize::from(found.count)].to_vec();
        Ok(Telegram { kind, da: found.da, sa: found.sa, fc: found.fc, unit })
    }
}

/// The characters of one burst, as they come off a line.
///
/// ```
/// use pbfdl::{Receiver, Telegram};
///
/// let mut receiver = Receiver::new();
/// assert_eq!(receiver.receive(0xdc)?, None);
/// assert_eq!(receiver.receive(2)?, None);
/// assert_eq!(receiver.receive(1)?, Some(Telegram::token(2, 1)));
/// # Ok::<(), pbfdl::Fault>(())
/// ```
#[derive(Clone)]
pub struct Receiver(sys::fdl_receiver);

impl Receiver {
    /// A receiver at the begin of a burst.
    pub fn new() -> Receiver {
        Receiver(sys::fdl_receiver { count: 0, characters: [0; 255] })
    }

    /// Takes the next character: an octet that came good, or [`DAMAGED`].
    ///
    /// Returns the telegram that the characters spell now, or `None` in the middle of one without a fault. A burst that spells a
    /// telegram has ended: make a new receiver for the next.
    ///
    /// # Errors
    /// `TooLong` where there are 255 characters already, which stay; with the character taken, the first fault of the characters,
    /// `Damaged` to `Trailing` without `Truncated`.
    pub fn receive(&mut self, character: u16) -> Result<Option<Telegram>, Fault> {
        // SAFETY: the pointer is to a receiver, which is changed during the call.
        match check(unsafe { sys::fdl_receive(&mut self.0, character) }) {
            Ok(()) => self.telegram().map(Some),
            Err(Fault::Truncated) => Ok(None),
            Err(fault) => Err(fault),
        }
    }

    /// The telegram that the characters spell.
    ///
    /// # Errors
    /// Their first fault, `Empty` to `Trailing`.
    pub fn telegram(&self) -> Result<Telegram, Fault> {
        let mut found = sys::fdl_telegram::default();
        // SAFETY: the pointers are to a receiver and a telegram, which is written during the call.
        check(unsafe { sys::fdl_received(&self.0, &mut found) })?;
        Telegram::of(&found)
    }

    /// The characters so far, at most 255: octets, and numbers over 255 for damaged ones.
    pub fn characters(&self) -> &[u16] {
        &self.0.characters[..usize::from(self.0.count)]
    }
}

impl Default for Receiver {
    fn default() -> Receiver {
        Receiver::new()
    }
}

impl PartialEq for Receiver {
    fn eq(&self, other: &Receiver) -> bool {
        self.characters() == other.characters()
    }
}

impl Eq for Receiver {}

impl fmt::Debug for Receiver {
    fn fmt(&self, f: &mut fmt::Formatter<'_>) -> fmt::Result {
        f.debug_tuple("Receiver").field(&self.characters()).finish()
    }
}
