//! The trace of a bus, and what an audit says of it.

use alloc::string::String;
use alloc::vec::Vec;
use core::fmt::{self, Write};

use crate::buses::Bus;
use crate::sys;

/// How a telegram reached a tap.
#[derive(Clone, Copy, Debug, PartialEq, Eq, Hash)]
pub enum Heard {
    /// The tap sent it.
    Own = 0,
    /// Heard whole.
    Whole = 1,
    /// Heard damaged or overlapped, or the station did not run throughout.
    Damaged = 2,
    /// Not heard.
    Unheard = 3,
    /// Not ended.
    Pending = 4,
}

impl Heard {
    /// The letter of a trace's text: `-`, `w`, `d`, `u`, `.`.
    pub fn letter(self) -> char {
        match self {
            Heard::Own => '-',
            Heard::Whole => 'w',
            Heard::Damaged => 'd',
            Heard::Unheard => 'u',
            Heard::Pending => '.',
        }
    }

    fn of(number: u8) -> Heard {
        match number {
            0 => Heard::Own,
            1 => Heard::Whole,
            2 => Heard::Damaged,
            3 => Heard::Unheard,
            _ => Heard::Pending,
        }
    }
}

/// An entry of the trace. Moments are in bit times since the bus began; `end` is the first moment after the entry.
#[derive(Clone, Debug, PartialEq, Eq, Hash)]
#[allow(missing_docs)]
pub enum Entry {
    /// A telegram: the tap that sent it, its octets as they were meant before a stop cut them, and how it reached each tap.
    Sent { begin: u64, end: u64, tap: usize, octets: Vec<u8>, heard: Vec<Heard> },
    /// Noise.
    Noise { begin: u64, end: u64 },
}

impl Entry {
    /// The moment at which it begins.
    pub fn begin(&self) -> u64 {
        match self {
            Entry::Sent { begin, .. } | Entry::Noise { begin, .. } => *begin,
        }
    }

    /// The first moment after it.
    pub fn end(&self) -> u64 {
        match self {
            Entry::Sent { end, .. } | Entry::Noise { end, .. } => *end,
        }
    }

    /// Its line in the trace that `ringplay run` prints, without the end of the line. The names are the taps'; a tap without a name
    /// has its index.
    pub fn line(&self, names: &[&str]) -> String {
        let mut text = String::new();
        let _ = self.write(&mut text, names);
        text
    }

    fn write(&self, text: &mut String, names: &[&str]) -> fmt::Result {
        let Entry::Sent { begin, end, tap, octets, heard } = self else {
            return write!(text, "{} {} ~ noise", self.begin(), self.end());
        };
        match names.get(*tap) {
            Some(name) => write!(text, "{begin} {end} {name} ")?,
            None => write!(text, "{begin} {end} {tap} ")?,
        }
        octets.iter().try_for_each(|octet| write!(text, "{octet:02x}"))?;
        text.push(' ');
        text.extend(heard.iter().map(|it| it.letter()));
        Ok(())
    }

    pub(crate) fn of(found: &sys::fdl_entry, taps: usize) -> Entry {
        let sys::fdl_entry { begin, end, noise, tap, .. } = *found;
        if noise {
            return Entry::Noise { begin, end };
        }
        let octets = found.octets[..usize::from(found.count)].to_vec();
        let heard = found.heard.iter().take(taps).map(|&it| Heard::of(it)).collect();
        Entry::Sent { begin, end, tap: usize::from(tap), octets, heard }
    }
}

/// What has been on a bus so far, by begin, noise first, then by tap: at most 100,000 entries.
#[derive(Clone, Copy, Debug)]
pub struct Trace<'a> {
    bus: &'a Bus,
}

impl<'a> Trace<'a> {
    pub(crate) fn new(bus: &'a Bus) -> Trace<'a> {
        Trace { bus }
    }

    /// How many entries there are.
    pub fn len(&self) -> usize {
        self.bus.entries()
    }

    /// Whether there is none.
    pub fn is_empty(&self) -> bool {
        self.len() == 0
    }

    /// The entry with an index, from 0.
    pub fn get(&self, index: usize) -> Option<Entry> {
        self.bus.entry(index)
    }

    /// The entries in order.
    pub fn iter(&self) -> Entries<'a> {
        Entries { bus: self.bus, next: 0, len: self.len() }
    }

    /// The text that `ringplay run` prints, a line an entry.
    pub fn text(&self, names: &[&str]) -> String {
        let mut text = String::new();
        for entry in self.iter() {
            let _ = entry.write(&mut text, names);
            text.push('\n');
        }
        text
    }
}

impl<'a> IntoIterator for Trace<'a> {
    type Item = Entry;
    type IntoIter = Entries<'a>;

    fn into_iter(self) -> Entries<'a> {
        self.iter()
    }
}

/// The entries of a trace, in order.
#[derive(Clone, Debug)]
pub struct Entries<'a> {
    bus: &'a Bus,
    next: usize,
    len: usize,
}

impl Iterator for Entries<'_> {
    type Item = Entry;

    fn next(&mut self) -> Option<Entry> {
        let entry = self.bus.entry(self.next)?;
        self.next += 1;
        Some(entry)
    }

    fn size_hint(&self) -> (usize, Option<usize>) {
        let left = self.len.saturating_sub(self.next);
        (left, Some(left))
    }
}

impl ExactSizeIterator for Entries<'_> {}

/// What an audit says.
#[derive(Clone, Copy, Debug, PartialEq, Eq, Hash)]
pub struct Audit {
    /// The number of the first premise that broke, 1 to 4, with the clock after the event that broke it.
    pub premise: Option<(u8, u64)>,
    /// The index of the first entry whose token or request is illegal.
    pub illegal: Option<u64>,
}

impl Audit {
    pub(crate) fn of(found: &sys::fdl_audit) -> Audit {
        let premise = (found.premise != 0).then_some((found.premise, found.moment));
        Audit { premise, illegal: found.illegal.then_some(found.entry) }
    }
}

impl fmt::Display for Audit {
    /// The two lines that `ringplay audit` prints.
    fn fmt(&self, f: &mut fmt::Formatter<'_>) -> fmt::Result {
        match self.premise {
            Some((number, moment)) => writeln!(f, "premise P{number} broken at {moment}")?,
            None => writeln!(f, "premises kept")?,
        }
        match self.illegal {
            Some(index) => write!(f, "record {index} illegal"),
            None => write!(f, "trace legal"),
        }
    }
}
