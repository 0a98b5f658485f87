//! The job of `ringplay monitor FILE` in plain Rust, with std alone and no proofs: what the bench measures the program against.
//!
//!     monitor_plain FILE lines|raw|pcap [--json] [--baud N] < CAPTURE
//!
//! FILE has the bus parameters. Telegrams are borrowed from the bytes that were read, or from the octets of a line. Left out is
//! what the bench does not use: pcapng, the options `--alarms`, `--slack` and `--every`, and the table. A packet of over 4,096
//! octets ends the program. Moments are below 2^63.

use std::env;
use std::fs;
use std::io::{self, Read, Write};
use std::process::ExitCode;

/// How many bytes are read at once at most.
const PIECE: usize = 65_536;
/// The most characters of a line.
const LONGEST_LINE: usize = 4_096;
/// Room for the octets of the longest telegram, and one that is too many.
const ROOM: usize = 256;
const LONGEST_PACKET: usize = 4_096;
const STATIONS: usize = 127;
/// How many bit times a character takes.
const CHARACTER_BITS: u64 = 11;

fn main() -> ExitCode {
    let words: Vec<String> = env::args().skip(1).collect();
    let words: Vec<&str> = words.iter().map(String::as_str).collect();
    let Some(monitor) = monitor_for(&words) else {
        eprintln!("usage: monitor_plain FILE lines|raw|pcap [--json] [--baud N] < CAPTURE");
        return ExitCode::from(2);
    };
    match run(monitor) {
        Ok(is_refused) => ExitCode::from(u8::from(is_refused)),
        Err(_) => ExitCode::from(3),
    }
}

/// The monitor that words on the command line ask for.
fn monitor_for(words: &[&str]) -> Option<Monitor> {
    let [file, form, options @ ..] = words else {
        return None;
    };
    let bus = Bus::of(&fs::read_to_string(file).ok()?)?;
    let form = match *form {
        "lines" => Form::Lines,
        "raw" => Form::Raw,
        "pcap" => Form::Pcap,
        _ => return None,
    };
    let baud = match options.iter().position(|word| *word == "--baud") {
        Some(place) => Some(options.get(place + 1)?.parse().ok()?),
        None => None,
    };
    Some(Monitor::new(bus, form, options.contains(&"--json"), baud))
}

/// Reads the capture and answers each piece as it comes. What a piece does not complete moves to the front of the buffer.
fn run(mut monitor: Monitor) -> io::Result<bool> {
    let (mut input, mut output) = (io::stdin().lock(), io::stdout().lock());
    let mut buffer = vec![0; PIECE];
    let mut left = 0;
    loop {
        let count = match input.read(&mut buffer[left..]) {
            Ok(0) => break,
            Ok(count) => count,
            Err(fault) if fault.kind() == io::ErrorKind::Interrupted => continue,
            Err(fault) => return Err(fault),
        };
        let filled = left + count;
        let eaten = monitor.feed(&buffer[..filled])?;
        buffer.copy_within(eaten..filled, 0);
        left = filled - eaten;
        output.write_all(&monitor.text)?;
        monitor.text.clear();
    }
    monitor.finish(&buffer[..left]);
    output.write_all(&monitor.text)?;
    Ok(monitor.statistics.refused + monitor.statistics.alarms > 0)
}

// ---- the bus

/// The bus parameters that a listener needs, in bit times.
struct Bus {
    tsl: u64,
    tid1: u64,
    lag: u64,
    ttd: u64,
}

impl Bus {
    /// The parameters of a file that keeps the rules.
    fn of(file: &str) -> Option<Bus> {
        Some(Bus {
            tsl: parameter(file, "tsl")?,
            tid1: parameter(file, "tid1")?,
            lag: parameter(file, "lag")?,
            ttd: parameter(file, "ttd").unwrap_or(0),
        })
    }

    /// The longest silence that a token in use leaves.
    fn longest_silence(&self) -> u64 {
        self.tsl + self.lag + 2 * self.ttd
    }

    /// How long after a token's end a station takes it at the latest.
    fn latest_taking(&self) -> u64 {
        self.tid1 + self.lag + 2 * self.ttd
    }

    fn timeout(&self, address: u8) -> u64 {
        (6 + 2 * u64::from(address)) * self.tsl
    }
}

/// The number behind a key and an equals sign.
fn parameter(file: &str, key: &str) -> Option<u64> {
    file.match_indices(key).find_map(|(place, _)| {
        if file[..place].ends_with(|before: char| before.is_alphanumeric()) {
            return None;
        }
        let value = file[place + key.len()..].trim_start().strip_prefix('=')?.trim_start();
        let end = value.find(|digit: char| !digit.is_ascii_digit() && digit != '_').unwrap_or(value.len());
        value[..end].replace('_', "").parse().ok()
    })
}

// ---- telegrams

#[derive(Clone, Copy)]
struct Head {
    da: u8,
    sa: u8,
    fc: u8,
}

#[derive(Clone, Copy)]
enum Telegram<'a> {
    Short(Head),
    /// Of eight octets of data, or of variable length, with the word for it.
    Data(&'static str, Head, &'a [u8]),
    Token(u8, u8),
    Acknowledgement,
}

/// Why characters are no telegram: number and name.
#[derive(Clone, Copy)]
struct Fault(u8, &'static str);

const TRUNCATED: Fault = Fault(4, "Truncated");
const BAD_ADDRESS: Fault = Fault(8, "BadAddress");
const TRAILING: Fault = Fault(12, "Trailing");

impl<'a> Telegram<'a> {
    /// The telegram that octets spell, or the first fault.
    fn parse(octets: &'a [u8]) -> Result<Telegram<'a>, Fault> {
        match octets {
            [] => Err(Fault(1, "Empty")),
            [0xe5] => Ok(Telegram::Acknowledgement),
            [0xe5, ..] => Err(TRAILING),
            [0xdc, da, sa, ..] if *da > 126 || *sa > 126 => Err(BAD_ADDRESS),
            [0xdc, da, sa] => Ok(Telegram::Token(*da, *sa)),
            [0xdc, _, _, ..] => Err(TRAILING),
            [0x10, body @ ..] => parse_body(body, 0).map(|(head, _)| Telegram::Short(head)),
            [0xa2, body @ ..] => parse_body(body, 8).map(|(head, unit)| Telegram::Data("fixed", head, unit)),
            [0x68, length, again, second, body @ ..] => parse_variable(*length, *again, *second, body),
            [0x68 | 0xdc, ..] => Err(TRUNCATED),
            _ => Err(Fault(3, "BadStart")),
        }
    }

    fn head(&self) -> Option<Head> {
        match self {
            Telegram::Short(head) | Telegram::Data(_, head, _) => Some(*head),
            Telegram::Token(..) | Telegram::Acknowledgement => None,
        }
    }
}

fn parse_variable(length: u8, again: u8, second: u8, body: &[u8]) -> Result<Telegram<'_>, Fault> {
    if !(4..=249).contains(&length) {
        return Err(Fault(5, "BadLength"));
    }
    let count = usize::from(length) - 3;
    if body.len() < count + 5 {
        return Err(TRUNCATED);
    }
    if again != length {
        return Err(Fault(6, "LengthsDiffer"));
    }
    if second != 0x68 {
        return Err(Fault(7, "BadSecondStart"));
    }
    parse_body(body, count).map(|(head, unit)| Telegram::Data("var", head, unit))
}

/// The head and the unit, of `count` octets, of what follows the start of a telegram.
fn parse_body(body: &[u8], count: usize) -> Result<(Head, &[u8]), Fault> {
    if body.len() < count + 5 {
        return Err(TRUNCATED);
    }
    let (summed, end) = body.split_at(count + 3);
    let head = Head { da: summed[0], sa: summed[1], fc: summed[2] };
    if head.sa % 128 == 127 {
        return Err(BAD_ADDRESS);
    }
    if head.fc >= 128 {
        return Err(Fault(9, "BadFc"));
    }
    if end[0] != summed.iter().fold(0, |sum: u8, octet| sum.wrapping_add(*octet)) {
        return Err(Fault(10, "BadFcs"));
    }
    if end[1] != 0x16 {
        return Err(Fault(11, "BadEnd"));
    }
    if end.len() > 2 {
        return Err(TRAILING);
    }
    Ok((head, &summed[3..]))
}

/// A control octet.
#[derive(Clone, Copy)]
struct Control(u8);

#[derive(Clone, Copy, PartialEq)]
enum Service {
    Sda,
    Sdn,
    Srd,
    Status,
    Unknown,
}

impl Control {
    fn is_request(self) -> bool {
        self.0 & 0x40 != 0
    }

    fn code(self) -> u8 {
        self.0 % 16
    }

    fn station_type(self) -> u8 {
        self.0 / 16 % 4
    }

    fn service(self) -> Service {
        match self.code() {
            3 | 5 => Service::Sda,
            4 | 6 => Service::Sdn,
            9 => Service::Status,
            12 | 13 => Service::Srd,
            _ => Service::Unknown,
        }
    }

    fn is_high(self) -> bool {
        matches!(self.code(), 5 | 6 | 13)
    }
}

/// What a token or request says of the token.
#[derive(Clone, Copy)]
struct Initiation {
    source: u8,
    offered: Option<u8>,
    is_claim: bool,
}

impl Initiation {
    /// What a telegram says of the token; `None` for replies and acknowledgements.
    fn of(telegram: &Telegram) -> Option<Initiation> {
        match *telegram {
            Telegram::Token(da, sa) => {
                Some(Initiation { source: sa, offered: (da != sa).then_some(da), is_claim: da == sa })
            }
            Telegram::Short(head) | Telegram::Data(_, head, _) if Control(head.fc).is_request() => {
                Some(Initiation { source: head.sa % 128, offered: None, is_claim: false })
            }
            _ => None,
        }
    }
}

// ---- characters and lines

/// The characters of a burst: at most as many octets as there is room for, how many there were, and the first damaged one.
struct Characters<'a> {
    octets: &'a [u8],
    count: usize,
    bad: Option<usize>,
}

const NO_DIGIT: u8 = 0xff;

/// What a byte of hex is worth.
const VALUES: [u8; 256] = values();

const DIGITS: &[u8; 16] = b"0123456789abcdef";

const fn values() -> [u8; 256] {
    let mut values = [NO_DIGIT; 256];
    let mut value = 0;
    while value < 16 {
        values[DIGITS[value as usize] as usize] = value;
        values[DIGITS[value as usize].to_ascii_uppercase() as usize] = value;
        value += 1;
    }
    values
}

/// The characters that pairs of hex digits spell; `None` if they are not hex.
fn read_hex<'a>(hex: &[u8], octets: &'a mut [u8; ROOM]) -> Option<Characters<'a>> {
    let (pairs, []) = hex.as_chunks() else {
        return None;
    };
    let mut bad = None;
    for (place, [high, low]) in pairs.iter().enumerate() {
        let (upper, lower) = (VALUES[usize::from(*high)], VALUES[usize::from(*low)]);
        if upper == NO_DIGIT || lower == NO_DIGIT {
            if [*high, *low] != *b"--" {
                return None;
            }
            bad = bad.or(Some(place));
        } else if let Some(octet) = octets.get_mut(place) {
            *octet = upper * 16 + lower;
        }
    }
    Some(Characters { octets: &octets[..pairs.len().min(ROOM)], count: pairs.len(), bad })
}

/// When a burst was on the bus.
enum When {
    Within(u64, u64),
    From(u64),
    Unknown,
}

enum Line<'a> {
    Blank,
    Gap,
    Burst(When, &'a [u8]),
}

enum LineFault<'a> {
    TooLong,
    TooManyFields,
    NoMoment(&'a [u8]),
    NotHex(&'a [u8]),
    EndsEarly,
}

impl LineFault<'_> {
    fn push(&self, text: &mut Vec<u8>) {
        let words: &[u8] = match self {
            LineFault::TooLong => b"the line has more than 4096 characters and was skipped; wanted: one burst a line\n",
            LineFault::TooManyFields => {
                b"the line has more than three fields; wanted: BEGIN END HEX, with no blanks inside HEX\n"
            }
            LineFault::NoMoment(field) => {
                push_quoted(text, field);
                b" is no moment; wanted: bit times, 0 to 18446744073709551615, or HEX alone with no blanks inside\n"
            }
            LineFault::NotHex(field) => {
                push_quoted(text, field);
                b" is not hex; wanted: two hex digits for each octet, -- for a damaged one\n"
            }
            LineFault::EndsEarly => b"the burst ends no later than it begins; wanted: BEGIN below END\n",
        };
        text.extend_from_slice(words);
    }
}

fn read_line(line: &[u8]) -> Result<Line<'_>, LineFault<'_>> {
    let mut fields = line
        .split(|byte| matches!(byte, b' ' | b'\t' | b'\r'))
        .take_while(|field| !field.starts_with(b"#"))
        .filter(|field| !field.is_empty());
    match [fields.next(), fields.next(), fields.next(), fields.next()] {
        [None, ..] => Ok(Line::Blank),
        [Some(b"gap"), None, ..] => Ok(Line::Gap),
        [Some(hex), None, ..] => Ok(Line::Burst(When::Unknown, hex)),
        [Some(begin), Some(hex), None, _] => Ok(Line::Burst(When::From(moment(begin)?), hex)),
        [Some(begin), Some(end), Some(hex), None] => {
            let (begin, end) = (moment(begin)?, moment(end)?);
            if end <= begin {
                return Err(LineFault::EndsEarly);
            }
            Ok(Line::Burst(When::Within(begin, end), hex))
        }
        [_, _, _, Some(_)] => Err(LineFault::TooManyFields),
    }
}

/// The number that a field spells in decimal digits.
fn moment(field: &[u8]) -> Result<u64, LineFault<'_>> {
    field
        .iter()
        .try_fold(0_u64, |number, byte| {
            let digit = byte.wrapping_sub(b'0');
            if digit > 9 {
                return None;
            }
            number.checked_mul(10)?.checked_add(u64::from(digit))
        })
        .ok_or(LineFault::NoMoment(field))
}

// ---- the judge

#[derive(Clone, Copy)]
enum Alarm {
    SpokeWithoutToken,
    SpokeOutOfTurn,
    PassedAgainTooEarly,
    PassedAgainThoughHeard,
    TookAfterSlot,
    ClaimedTooEarly,
    SpokeAfterLoss,
    ClaimedTooEarlyAfterLoss,
    TookLate,
    TookTooSoon,
}

impl Alarm {
    fn name(self) -> &'static [u8] {
        match self {
            Alarm::SpokeWithoutToken => b"SpokeWithoutToken",
            Alarm::SpokeOutOfTurn => b"SpokeOutOfTurn",
            Alarm::PassedAgainTooEarly => b"PassedAgainTooEarly",
            Alarm::PassedAgainThoughHeard => b"PassedAgainThoughHeard",
            Alarm::TookAfterSlot => b"TookAfterSlot",
            Alarm::ClaimedTooEarly => b"ClaimedTooEarly",
            Alarm::SpokeAfterLoss => b"SpokeAfterLoss",
            Alarm::ClaimedTooEarlyAfterLoss => b"ClaimedTooEarlyAfterLoss",
            Alarm::TookLate => b"TookLate",
            Alarm::TookTooSoon => b"TookTooSoon",
        }
    }
}

/// The last token or request, with its end, and whether its speaker heard something in its slot.
#[derive(Clone, Copy)]
struct Last {
    said: Initiation,
    end: u64,
    is_touched: bool,
}

/// What the judge keeps of the bursts.
#[derive(Clone, Copy)]
struct Judge {
    since: u64,
    last: Option<Last>,
    /// The end of the last burst.
    quiet: u64,
    /// The last silence that may be a time-out.
    silence: (u64, u64),
    is_lost: bool,
}

impl Judge {
    fn new(since: u64) -> Judge {
        Judge { since, last: None, quiet: since, silence: (since, since), is_lost: false }
    }

    /// A burst begins: it may end a silence that may be a time-out, or the one in which listening began.
    fn end_silence(&mut self, bus: &Bus, begin: u64) {
        let (from, to) = self.silence;
        if self.quiet == to || self.quiet + 6 * bus.tsl <= begin + bus.ttd {
            self.silence = (if begin <= to + bus.ttd { from } else { self.quiet }, begin);
        }
        self.is_lost |= self.quiet + bus.longest_silence() < begin;
    }

    /// What is wrong with a token or request that begins now.
    fn alarm(&self, bus: &Bus, begin: u64, said: Initiation) -> Option<Alarm> {
        if said.is_claim && self.may_claim(bus, begin, said.source) {
            return None;
        }
        if self.quiet + bus.longest_silence() < begin {
            let alarm = if said.is_claim { Alarm::ClaimedTooEarlyAfterLoss } else { Alarm::SpokeAfterLoss };
            return Some(alarm);
        }
        let last = self.last?;
        let is_same = said.source == last.said.source;
        let alarm = match last.said.offered {
            None if is_same => return None,
            None => Alarm::SpokeWithoutToken,
            Some(_) if is_same => return last.alarm_of_passing(bus, begin),
            Some(to) if said.source != to => Alarm::SpokeOutOfTurn,
            Some(_) if begin < last.end + bus.tsl + bus.ttd => return last.alarm_of_taking(bus, begin),
            Some(_) => Alarm::TookAfterSlot,
        };
        Some(if said.is_claim { Alarm::ClaimedTooEarly } else { alarm })
    }

    /// Whether a claim may come now.
    fn may_claim(&self, bus: &Bus, begin: u64, source: u8) -> bool {
        let (from, to) = self.silence;
        let timeout = bus.timeout(source);
        let is_first = from <= self.since && begin < self.since + bus.ttd + timeout;
        begin <= to + bus.ttd && (is_first || from + timeout <= begin)
    }

    /// A burst ends, with a telegram or without.
    fn keep(&mut self, bus: &Bus, burst: &Burst) {
        self.quiet = burst.end;
        match (burst.said, &mut self.last) {
            (Some(said), last) => {
                *last = Some(Last { said, end: burst.end, is_touched: false });
                self.is_lost = false;
            }
            (None, last) if burst.telegram.is_err() => *last = None,
            (None, Some(last)) => last.is_touched |= burst.begin + 2 * bus.ttd < last.end + bus.tsl,
            (None, None) => {}
        }
    }

    /// Appends who may send tokens and requests at the end of the last burst.
    fn push_holder(&self, bus: &Bus, text: &mut Vec<u8>) {
        let Some(last) = self.last.filter(|_| !self.is_lost) else {
            text.extend_from_slice(b" | unknown");
            return;
        };
        match last.said.offered {
            Some(to) if self.quiet < last.end + bus.tsl => push_counted(text, b" | offered to ", to.into()),
            Some(_) if last.is_touched => text.extend_from_slice(b" | nobody"),
            _ => push_counted(text, b" | holder ", last.said.source.into()),
        }
    }
}

impl Last {
    /// What is wrong if the station that passed the token speaks again.
    fn alarm_of_passing(&self, bus: &Bus, begin: u64) -> Option<Alarm> {
        if begin < self.end + bus.tsl {
            return Some(Alarm::PassedAgainTooEarly);
        }
        self.is_touched.then_some(Alarm::PassedAgainThoughHeard)
    }

    /// What is wrong if the station that was offered the token takes it.
    fn alarm_of_taking(&self, bus: &Bus, begin: u64) -> Option<Alarm> {
        if self.end + bus.latest_taking() < begin {
            return Some(Alarm::TookLate);
        }
        (begin < self.end + bus.tid1).then_some(Alarm::TookTooSoon)
    }
}

/// What is wrong with a token or request by the order of telegrams alone.
fn alarm_by_order(last: Option<Initiation>, said: Initiation) -> Option<Alarm> {
    let last = last?;
    if said.is_claim || said.source == last.source {
        return None;
    }
    match last.offered {
        Some(to) if said.source == to => None,
        Some(_) => Some(Alarm::SpokeOutOfTurn),
        None => Some(Alarm::SpokeWithoutToken),
    }
}

/// Appends the line of an alarm. `before` is what the judge knew.
fn push_alarm(text: &mut Vec<u8>, bus: &Bus, alarm: Alarm, said: Initiation, begin: u64, before: &Judge) {
    push_counted(text, b"alarm at ", begin);
    push_alarm_name(text, alarm, said.source);
    let silence = begin.saturating_sub(before.quiet);
    match alarm {
        Alarm::SpokeAfterLoss => {
            push_counted(text, b"it spoke without claiming after a silence of ", silence);
            push_counted(text, b", and a token in use leaves at most ", bus.longest_silence());
            push_had_last(text, before.last);
        }
        Alarm::ClaimedTooEarlyAfterLoss | Alarm::ClaimedTooEarly => {
            push_counted(text, b"it claimed after a silence of ", silence);
            push_counted(text, b", and its time-out is ", bus.timeout(said.source));
            push_had_last(text, before.last);
        }
        _ => push_after_last(text, bus, alarm, begin, before.last),
    }
    text.push(b'\n');
}

fn push_alarm_name(text: &mut Vec<u8>, alarm: Alarm, source: u8) {
    push_counted(text, b" by ", source.into());
    text.extend_from_slice(b": ");
    text.extend_from_slice(alarm.name());
    text.extend_from_slice(b": ");
}

/// Appends to the end of a sentence who had the token, or was offered it.
fn push_had_last(text: &mut Vec<u8>, last: Option<Last>) {
    if let Some(last) = last {
        text.extend_from_slice(b"; ");
        push_had(text, Some(last.said));
    }
}

/// Appends who had the token, or was offered it.
fn push_had(text: &mut Vec<u8>, last: Option<Initiation>) {
    let Some(last) = last else {
        return;
    };
    push_counted(text, b"station ", last.source.into());
    match last.offered {
        Some(to) => push_counted(text, b" had passed the token to station ", to.into()),
        None => text.extend_from_slice(b" had the token"),
    }
}

fn push_after_last(text: &mut Vec<u8>, bus: &Bus, alarm: Alarm, begin: u64, last: Option<Last>) {
    push_had(text, last.map(|last| last.said));
    let after = last.map_or(0, |last| begin.saturating_sub(last.end));
    let (limit, bits): (&[u8], u64) = match alarm {
        Alarm::PassedAgainTooEarly => {
            push_counted(text, b" and spoke again ", after);
            return push_counted(text, b" after the end of that token; the slot is ", bus.tsl);
        }
        Alarm::PassedAgainThoughHeard => {
            return text.extend_from_slice(b" and spoke again though something was heard in the slot");
        }
        Alarm::TookAfterSlot => (b"the slot is ", bus.tsl),
        Alarm::TookLate => (b"the latest is ", bus.latest_taking()),
        Alarm::TookTooSoon => (b"the earliest is ", bus.tid1),
        _ => return,
    };
    push_counted(text, b"; it was taken ", after);
    text.extend_from_slice(b" after its end, and ");
    push_counted(text, limit, bits);
}

// ---- statistics

#[derive(Clone, Copy, Default)]
struct Spread {
    count: u64,
    total: u64,
    least: u64,
    greatest: u64,
}

impl Spread {
    fn add(&mut self, bits: u64) {
        self.least = if self.count == 0 { bits } else { self.least.min(bits) };
        self.greatest = self.greatest.max(bits);
        self.count += 1;
        self.total = self.total.saturating_add(bits);
    }

    fn mean(&self) -> u64 {
        self.total.checked_div(self.count).unwrap_or(0)
    }
}

#[derive(Clone, Copy, Default, PartialEq)]
enum Role {
    #[default]
    Unknown,
    Passive,
    MasterNotReady,
    MasterReady,
    MasterInRing,
}

impl Role {
    fn of(station_type: u8) -> Role {
        match station_type {
            0 => Role::Passive,
            1 => Role::MasterNotReady,
            2 => Role::MasterReady,
            _ => Role::MasterInRing,
        }
    }

    fn name(self) -> &'static [u8] {
        match self {
            Role::Unknown => b"unknown",
            Role::Passive => b"passive",
            Role::MasterNotReady => b"master not ready",
            Role::MasterReady => b"master ready",
            Role::MasterInRing => b"master in ring",
        }
    }
}

#[derive(Clone, Copy, Default)]
struct Station {
    telegrams: u64,
    last_heard: Option<u64>,
    role: Role,
    tokens: u64,
    claims: u64,
    requests: u64,
    polls: u64,
    repeats: u64,
    unanswered: u64,
    damaged_answers: u64,
    polled: u64,
    tokens_not_taken: u64,
    rotation: Spread,
    taking: Spread,
    replying: Spread,
    /// When it last received the token, if all since is known.
    receipt: Option<u64>,
}

impl Station {
    fn is_known(&self) -> bool {
        self.telegrams > 0 || self.polled > 0 || self.tokens_not_taken > 0
    }

    fn note(&mut self, end: u64, is_timed: bool) {
        self.telegrams += 1;
        if is_timed {
            self.last_heard = Some(end);
        }
    }

    /// It received the token, at a moment if that is known.
    fn receive(&mut self, moment: Option<u64>) {
        if let (Some(moment), Some(before)) = (moment, self.receipt) {
            self.rotation.add(moment.saturating_sub(before));
        }
        self.receipt = moment;
    }
}

/// The list of active stations, learned from two equal rotations; sets of addresses are masks.
#[derive(Default)]
struct Ring {
    last: Option<(u8, u8)>,
    members: Option<u128>,
    rotation: u128,
    closed: Option<u128>,
}

impl Ring {
    fn hear(&mut self, sa: u8, da: u8) {
        let is_again = sa != da && self.last == Some((sa, da));
        self.last = Some((sa, da));
        if is_again {
            return;
        }
        if let Some(members) = &mut self.members {
            *members = *members & !between(sa, da) | 1 << sa | 1 << da;
            return;
        }
        self.rotation |= 1 << sa;
        if sa >= da {
            let rotation = std::mem::take(&mut self.rotation);
            if self.closed.replace(rotation) == Some(rotation) {
                self.members = Some(rotation);
            }
        }
    }
}

/// The addresses strictly between two others, in cyclic order.
fn between(from: u8, to: u8) -> u128 {
    let (behind, before) = (u128::MAX << from << 1, (1 << to) - 1);
    if from < to { behind & before } else { behind | before }
}

#[derive(Clone, Copy, PartialEq)]
enum Answer {
    Awaited,
    Good,
    Damaged,
}

/// A request that wants an answer.
#[derive(Clone, Copy)]
struct Open {
    source: u8,
    to: u8,
    end: Option<u64>,
    is_poll: bool,
    answer: Answer,
}

impl Open {
    /// Whether a telegram with this head, if it has one, is its answer.
    fn is_answered_by(&self, head: Option<Head>) -> bool {
        match head {
            Some(head) => {
                let is_back = head.sa % 128 == self.to && head.da % 128 == self.source;
                is_back && (!self.is_poll || head.fc % 16 == 0)
            }
            None => !self.is_poll,
        }
    }
}

/// Damaged bursts by place.
#[derive(Default)]
struct Damage {
    after_loss: u64,
    taking: u64,
    replying: u64,
    other: u64,
}

struct Burst<'a> {
    begin: u64,
    end: u64,
    octets: &'a [u8],
    telegram: Result<Telegram<'a>, Fault>,
    /// What the telegram says of the token, if it is a token or request.
    said: Option<Initiation>,
}

impl<'a> Burst<'a> {
    fn new(begin: u64, end: u64, characters: &Characters<'a>) -> Burst<'a> {
        let telegram = match characters.bad {
            Some(_) => Err(Fault(2, "Faulty")),
            None => Telegram::parse(characters.octets),
        };
        let said = telegram.as_ref().ok().and_then(Initiation::of);
        Burst { begin, end, octets: characters.octets, telegram, said }
    }
}

struct Statistics {
    tsl: u64,
    longest_live: u64,
    first: Option<u64>,
    last: Option<u64>,
    busy: u64,
    /// How long all moments are known.
    span: u64,
    bursts: u64,
    damage: Damage,
    longest_silence: u64,
    alarms: u64,
    refused: u64,
    stations: [Station; STATIONS],
    ring: Ring,
    /// The octets of the last token or request.
    previous: Vec<u8>,
    /// A token to another station that nobody has taken: to whom, and its end, if that is known.
    offer: Option<(u8, Option<u64>)>,
    open: Option<Open>,
    quiet: Option<u64>,
    is_timed: bool,
}

impl Statistics {
    fn new(bus: &Bus) -> Statistics {
        Statistics {
            tsl: bus.tsl,
            longest_live: bus.longest_silence(),
            first: None,
            last: None,
            busy: 0,
            span: 0,
            bursts: 0,
            damage: Damage::default(),
            longest_silence: 0,
            alarms: 0,
            refused: 0,
            stations: [Station::default(); STATIONS],
            ring: Ring::default(),
            previous: Vec::with_capacity(ROOM),
            offer: None,
            open: None,
            quiet: None,
            is_timed: true,
        }
    }

    /// Forgets what came before: something was missed.
    fn forget(&mut self) {
        self.quiet = None;
        self.is_timed = true;
        self.forget_telegrams();
    }

    fn forget_telegrams(&mut self) {
        self.open = None;
        self.offer = None;
        self.previous.clear();
        self.forget_receipts();
    }

    fn forget_receipts(&mut self) {
        for station in &mut self.stations {
            station.receipt = None;
        }
    }

    fn hear(&mut self, burst: &Burst) {
        // After a burst without moments no silence is known.
        let before = if self.is_timed { self.quiet } else { Some(burst.begin) };
        self.is_timed = true;
        self.bursts += 1;
        self.busy += burst.end - burst.begin;
        self.span += burst.end.saturating_sub(before.unwrap_or(burst.begin));
        self.first.get_or_insert(burst.begin);
        self.last = Some(burst.end);
        self.quiet = Some(burst.end);
        let silence = before.map(|end| burst.begin.saturating_sub(end));
        self.longest_silence = self.longest_silence.max(silence.unwrap_or(0));
        self.hear_telegram(burst, silence);
    }

    fn hear_untimed(&mut self, burst: &Burst) {
        self.is_timed = false;
        self.quiet = None;
        self.bursts += 1;
        self.hear_telegram(burst, None);
    }

    /// Counts what a burst says after a silence, if that is known.
    fn hear_telegram(&mut self, burst: &Burst, silence: Option<u64>) {
        match (&burst.telegram, burst.said) {
            (Err(_), _) => self.hear_damage(burst.begin, silence),
            (Ok(telegram), Some(said)) => {
                let is_claim = said.is_claim && silence.map_or(self.is_timed, |bits| bits > self.longest_live);
                self.hear_initiation(burst, telegram, said, is_claim);
            }
            (Ok(telegram), None) => self.hear_reply(burst, telegram),
        }
    }

    fn hear_damage(&mut self, begin: u64, silence: Option<u64>) {
        let is_awaited = self.open.is_some_and(|open| open.answer == Answer::Awaited);
        let is_over = silence.is_some_and(|bits| bits > self.longest_live);
        if is_over {
            self.damage.after_loss += 1;
        } else if is_awaited {
            self.damage.replying += 1;
        } else if self.offer.is_some_and(|(_, end)| self.bits_since(end, begin).is_none_or(|bits| bits < self.tsl)) {
            self.damage.taking += 1;
        } else {
            self.damage.other += 1;
        }
        if let Some(open) = &mut self.open
            && is_awaited
            && !is_over
        {
            open.answer = Answer::Damaged;
        }
        self.close();
        self.forget_telegrams();
    }

    fn hear_initiation(&mut self, burst: &Burst, telegram: &Telegram, said: Initiation, is_claim: bool) {
        self.close();
        let is_repeat = !said.is_claim && burst.octets == self.previous;
        if !is_repeat {
            self.previous.clear();
            self.previous.extend_from_slice(burst.octets);
        }
        self.take_offer(burst.begin, said, is_repeat);
        self.offer = said.offered.map(|to| (to, self.known(burst.end)));
        let station = &mut self.stations[usize::from(said.source)];
        station.note(burst.end, self.is_timed);
        station.repeats += u64::from(is_repeat);
        match telegram {
            Telegram::Token(da, sa) => {
                self.ring.hear(*sa, *da);
                self.hear_token(burst.end, said, is_claim);
            }
            Telegram::Short(head) | Telegram::Data(_, head, _) => self.hear_request(burst.end, *head),
            Telegram::Acknowledgement => {}
        }
    }

    /// Notes who took the token that was offered, or that it was sent again after its slot.
    fn take_offer(&mut self, begin: u64, said: Initiation, is_repeat: bool) {
        let Some((to, end)) = self.offer else {
            return;
        };
        let bits = self.bits_since(end, begin);
        let station = &mut self.stations[usize::from(to)];
        if to == said.source {
            if !said.is_claim {
                station.receive(end);
                if let Some(bits) = bits {
                    station.taking.add(bits);
                }
            }
        } else if is_repeat && bits.is_none_or(|bits| bits >= self.tsl) {
            station.tokens_not_taken += 1;
        }
    }

    /// A moment of the last burst, if the capture gives it.
    fn known(&self, moment: u64) -> Option<u64> {
        self.is_timed.then_some(moment)
    }

    /// How long after an earlier end the last burst begins, if both moments are known.
    fn bits_since(&self, end: Option<u64>, begin: u64) -> Option<u64> {
        Some(self.known(begin)?.saturating_sub(end?))
    }

    fn hear_token(&mut self, end: u64, said: Initiation, is_claim: bool) {
        if is_claim {
            self.forget_receipts();
        }
        let end = self.known(end);
        let station = &mut self.stations[usize::from(said.source)];
        station.tokens += 1;
        station.role = Role::MasterInRing;
        if is_claim {
            station.claims += 1;
        } else if said.is_claim {
            station.receive(end);
        }
    }

    fn hear_request(&mut self, end: u64, head: Head) {
        let (source, to) = (head.sa % 128, head.da % 128);
        let service = Control(head.fc).service();
        let station = &mut self.stations[usize::from(source)];
        station.requests += 1;
        let is_poll = service == Service::Status;
        if is_poll {
            station.polls += 1;
            if let Some(asked) = self.stations.get_mut(usize::from(to)) {
                asked.polled += 1;
            }
        }
        if !matches!(service, Service::Sdn | Service::Unknown) {
            self.open = Some(Open { source, to, end: self.known(end), is_poll, answer: Answer::Awaited });
        }
    }

    fn hear_reply(&mut self, burst: &Burst, telegram: &Telegram) {
        let head = telegram.head();
        let Some(open) = self.open.filter(|open| open.answer == Answer::Awaited && open.is_answered_by(head)) else {
            return;
        };
        self.open = Some(Open { answer: Answer::Good, ..open });
        let bits = self.bits_since(open.end, burst.begin);
        let Some(station) = self.stations.get_mut(usize::from(open.to)) else {
            return;
        };
        station.note(burst.end, self.is_timed);
        if let Some(bits) = bits {
            station.replying.add(bits);
        }
        if let Some(head) = head
            && station.role != Role::MasterInRing
        {
            station.role = Role::of(Control(head.fc).station_type());
        }
    }

    /// The request that is open gets no more answer.
    fn close(&mut self) {
        let Some(open) = self.open.take() else {
            return;
        };
        let station = &mut self.stations[usize::from(open.source)];
        match open.answer {
            Answer::Awaited => station.unanswered += 1,
            Answer::Damaged => station.damaged_answers += 1,
            Answer::Good => {}
        }
    }

    /// The load of the bus in tenths of a percent.
    fn load(&self) -> u64 {
        let load = (u128::from(self.busy) * 1_000).checked_div(u128::from(self.span));
        load.unwrap_or(0).min(1_000) as u64
    }

    fn known_stations(&self) -> impl Iterator<Item = (u64, &Station)> {
        (0..).zip(&self.stations).filter(|(_, station)| station.is_known())
    }

    /// The active stations, if they are known.
    fn active(&self) -> Option<impl Iterator<Item = u64>> {
        let members = self.ring.members?;
        Some((0..STATIONS as u64).filter(move |address| members >> address & 1 == 1))
    }
}

// ---- the monitor

#[derive(Clone, Copy)]
enum Form {
    Lines,
    Raw,
    Pcap,
}

struct Monitor {
    bus: Bus,
    form: Form,
    is_json: bool,
    baud: Option<u64>,
    statistics: Statistics,
    judge: Option<Judge>,
    /// The last token or request of telegrams without moments.
    order: Option<Initiation>,
    packets: Packets,
    /// How many lines, octets or packets came before.
    place: u64,
    /// How many octets were skipped in a row.
    skipped: u64,
    quiet: Option<u64>,
    is_too_long: bool,
    text: Vec<u8>,
}

impl Monitor {
    fn new(bus: Bus, form: Form, is_json: bool, baud: Option<u64>) -> Monitor {
        Monitor {
            statistics: Statistics::new(&bus),
            bus,
            form,
            is_json,
            baud,
            judge: None,
            order: None,
            packets: Packets::default(),
            place: 0,
            skipped: 0,
            quiet: None,
            is_too_long: false,
            text: Vec::new(),
        }
    }

    /// Reads bytes of the capture, and returns how many it needs no longer.
    fn feed(&mut self, bytes: &[u8]) -> io::Result<usize> {
        match self.form {
            Form::Lines => Ok(self.feed_lines(bytes)),
            Form::Raw => Ok(self.feed_octets(bytes)),
            Form::Pcap => self.feed_packets(bytes),
        }
    }

    /// The capture ends with these bytes.
    fn finish(&mut self, bytes: &[u8]) {
        match self.form {
            Form::Lines if !bytes.is_empty() || self.is_too_long => self.hear_line(bytes),
            Form::Lines => {}
            Form::Raw => self.end_octets(bytes),
            Form::Pcap => self.end_packets(bytes),
        }
        self.statistics.close();
        if self.is_json {
            push_json(&mut self.text, &self.statistics, &self.form);
        } else {
            push_summary(&mut self.text, &self.statistics, &self.form);
        }
    }

    fn begin_anew(&mut self) {
        self.judge = None;
        self.order = None;
        self.quiet = None;
        self.statistics.forget();
    }

    fn refuse(&mut self) {
        self.begin_anew();
        self.statistics.refused += 1;
    }

    // ---- lines

    fn feed_lines(&mut self, bytes: &[u8]) -> usize {
        let mut rest = bytes;
        for line in bytes.split_inclusive(|byte| *byte == b'\n') {
            if let [line @ .., b'\n'] = line {
                self.hear_line(line);
                rest = &rest[line.len() + 1..];
            }
        }
        if rest.len() > LONGEST_LINE {
            self.is_too_long = true;
            rest = &[];
        }
        bytes.len() - rest.len()
    }

    fn hear_line(&mut self, line: &[u8]) {
        self.place += 1;
        if std::mem::take(&mut self.is_too_long) || line.len() > LONGEST_LINE {
            return self.refuse_line(&LineFault::TooLong);
        }
        match read_line(line) {
            Ok(Line::Blank) => {}
            Ok(Line::Gap) => self.begin_anew(),
            Ok(Line::Burst(when, hex)) => match read_hex(hex, &mut [0; ROOM]) {
                Some(characters) => self.hear(when, &characters),
                None => self.refuse_line(&LineFault::NotHex(hex)),
            },
            Err(fault) => self.refuse_line(&fault),
        }
    }

    fn refuse_line(&mut self, fault: &LineFault) {
        push_refused(&mut self.text, b"line ", self.place);
        fault.push(&mut self.text);
        self.refuse();
    }

    // ---- octets without boundaries

    fn feed_octets(&mut self, bytes: &[u8]) -> usize {
        let mut rest = bytes;
        while let Some(need) = needed(rest)
            && need <= rest.len()
        {
            rest = self.cut(rest, need);
        }
        self.tell_skipped();
        bytes.len() - rest.len()
    }

    fn end_octets(&mut self, bytes: &[u8]) {
        let mut rest = bytes;
        while !rest.is_empty() {
            rest = match needed(rest) {
                Some(need) if need <= rest.len() => self.cut(rest, need),
                _ => self.skip(rest),
            };
        }
        self.tell_skipped();
    }

    /// Cuts off a telegram of so many octets, or skips one octet; what is left.
    fn cut<'a>(&mut self, octets: &'a [u8], need: usize) -> &'a [u8] {
        let (front, rest) = octets.split_at(need);
        let burst = Burst::new(0, 0, &Characters { octets: front, count: need, bad: None });
        let Ok(telegram) = burst.telegram else {
            return self.skip(octets);
        };
        self.tell_skipped();
        self.statistics.hear_untimed(&burst);
        if !self.is_json {
            push_number(&mut self.text, self.place);
            self.text.push(b' ');
            push_telegram(&mut self.text, &telegram);
            self.text.push(b'\n');
        }
        self.place += need as u64;
        rest
    }

    fn skip<'a>(&mut self, octets: &'a [u8]) -> &'a [u8] {
        self.skipped += 1;
        self.place += 1;
        &octets[1..]
    }

    fn tell_skipped(&mut self) {
        if self.skipped == 0 {
            return;
        }
        push_refused(&mut self.text, b"offset ", self.place - self.skipped);
        push_number(&mut self.text, self.skipped);
        self.text.extend_from_slice(b" octets skipped; no telegram begins at them\n");
        self.skipped = 0;
        self.refuse();
    }

    // ---- packets

    fn feed_packets(&mut self, bytes: &[u8]) -> io::Result<usize> {
        let mut rest = bytes;
        if !self.packets.is_open {
            match self.open_packets(bytes) {
                Some(behind) => rest = behind,
                None if self.packets.is_refused => return Ok(bytes.len()),
                None => return Ok(0),
            }
        }
        while let Some((head, behind)) = rest.split_first_chunk::<16>() {
            let count = self.packets.word(head, 8) as usize;
            if count > LONGEST_PACKET {
                return Err(io::ErrorKind::InvalidData.into());
            }
            let Some((octets, behind)) = behind.split_at_checked(count) else {
                break;
            };
            self.hear_packet(head, octets);
            rest = behind;
        }
        let eaten = bytes.len() - rest.len();
        self.packets.offset += eaten as u64;
        Ok(eaten)
    }

    /// Reads the head of the file, if it is there; what is behind it.
    fn open_packets<'a>(&mut self, bytes: &'a [u8]) -> Option<&'a [u8]> {
        if self.packets.is_refused {
            return None;
        }
        let (magic, _) = bytes.split_first_chunk()?;
        if !self.packets.tell_order(magic) {
            self.refuse_packets(b"this is no file of packets; wanted: pcap or pcapng");
            return None;
        }
        let (head, behind) = bytes.split_first_chunk::<24>()?;
        let link = self.packets.word(head, 20) & 0xffff;
        if link != 257 && link != 147 {
            let text = b"the packets are of another link type; wanted: 257 (PROFIBUS) or 147; this is ";
            self.refuse_packets(&[text.as_slice(), link.to_string().as_bytes()].concat());
            return None;
        }
        self.packets.is_open = true;
        Some(behind)
    }

    fn refuse_packets(&mut self, words: &[u8]) {
        push_refused(&mut self.text, b"offset ", self.packets.offset);
        self.text.extend_from_slice(words);
        self.text.push(b'\n');
        self.refuse();
        self.packets.is_refused = true;
    }

    fn hear_packet(&mut self, head: &[u8], octets: &[u8]) {
        self.place += 1;
        let characters = Characters { octets: &octets[..octets.len().min(ROOM)], count: octets.len(), bad: None };
        let when = match self.baud {
            Some(baud) => When::From(self.packets.moment(head, baud)),
            None => When::Unknown,
        };
        self.hear(when, &characters);
    }

    fn end_packets(&mut self, bytes: &[u8]) {
        if !self.packets.is_refused && (!bytes.is_empty() || !self.packets.is_open) {
            self.refuse_packets(b"the file ends within a packet or a head");
        }
    }

    // ---- bursts

    fn hear(&mut self, when: When, characters: &Characters) {
        let (begin, end) = match when {
            When::Within(begin, end) => (begin, end),
            When::From(begin) => (begin, begin + CHARACTER_BITS * characters.count as u64),
            When::Unknown => return self.hear_untimed(characters),
        };
        if let Some(quiet) = self.quiet
            && begin < quiet
        {
            self.refuse_burst(begin, quiet);
        }
        self.quiet = Some(end);
        let burst = Burst::new(begin, end, characters);
        self.statistics.hear(&burst);
        if self.judge.is_none() {
            self.order = None;
        }
        let judge = self.judge.get_or_insert_with(|| Judge::new(begin));
        judge.end_silence(&self.bus, begin);
        let raised = burst.said.and_then(|said| Some((judge.alarm(&self.bus, begin, said)?, said, *judge)));
        judge.keep(&self.bus, &burst);
        if !self.is_json {
            push_timed(&mut self.text, &burst, characters.bad);
            judge.push_holder(&self.bus, &mut self.text);
            self.text.push(b'\n');
        }
        if let Some((alarm, said, before)) = raised {
            self.statistics.alarms += 1;
            push_alarm(&mut self.text, &self.bus, alarm, said, begin, &before);
        }
    }

    /// A burst begins before the end of the last one.
    fn refuse_burst(&mut self, begin: u64, quiet: u64) {
        let what: &[u8] = match self.form {
            Form::Lines => b"line ",
            Form::Raw => b"offset ",
            Form::Pcap => b"packet ",
        };
        push_refused(&mut self.text, what, self.place);
        push_counted(&mut self.text, b"the burst begins at ", begin);
        push_counted(&mut self.text, b", before the last one ends at ", quiet);
        self.text.extend_from_slice(b"; wanted: bursts in order");
        if let Form::Pcap = self.form {
            self.text.extend_from_slice(b" (is --baud that of the bus?)");
        }
        self.text.extend_from_slice(b"\n");
        self.refuse();
    }

    fn hear_untimed(&mut self, characters: &Characters) {
        self.quiet = None;
        self.judge = None;
        let burst = Burst::new(0, 0, characters);
        self.statistics.hear_untimed(&burst);
        if !self.is_json {
            push_content(&mut self.text, &burst, characters.bad);
            self.text.push(b'\n');
        }
        let last = self.order;
        if burst.said.is_some() || burst.telegram.is_err() {
            self.order = burst.said;
        }
        if let Some(said) = burst.said
            && let Some(alarm) = alarm_by_order(last, said)
        {
            self.statistics.alarms += 1;
            self.text.extend_from_slice(b"alarm");
            push_alarm_name(&mut self.text, alarm, said.source);
            push_had(&mut self.text, last);
            self.text.push(b'\n');
        }
    }
}

/// How many octets the telegram has that begins with these; 1 if none begins. `None` if too few have come.
fn needed(octets: &[u8]) -> Option<usize> {
    match octets {
        [] | [0x68] => None,
        [0x68, count @ 4..=249, ..] => Some(usize::from(*count) + 6),
        [0x10, ..] => Some(6),
        [0xa2, ..] => Some(14),
        [0xdc, ..] => Some(3),
        _ => Some(1),
    }
}

/// What is known of a pcap file.
#[derive(Default)]
struct Packets {
    is_open: bool,
    is_refused: bool,
    is_big: bool,
    is_nano: bool,
    /// The offset of the next packet.
    offset: u64,
    /// The moment of the first packet.
    origin: Option<u64>,
}

impl Packets {
    /// Notes the byte order and the unit of timestamps; whether it is pcap.
    fn tell_order(&mut self, magic: &[u8; 4]) -> bool {
        (self.is_big, self.is_nano) = match magic {
            [0xd4, 0xc3, 0xb2, 0xa1] => (false, false),
            [0xa1, 0xb2, 0xc3, 0xd4] => (true, false),
            [0x4d, 0x3c, 0xb2, 0xa1] => (false, true),
            [0xa1, 0xb2, 0x3c, 0x4d] => (true, true),
            _ => return false,
        };
        true
    }

    /// The number of four octets from a place on.
    fn word(&self, octets: &[u8], place: usize) -> u32 {
        let octets = octets[place..place + 4].try_into().expect("four octets");
        if self.is_big { u32::from_be_bytes(octets) } else { u32::from_le_bytes(octets) }
    }

    /// The moment of a packet, in bit times since the first packet.
    fn moment(&mut self, head: &[u8], baud: u64) -> u64 {
        let (seconds, parts) = (u64::from(self.word(head, 0)), u64::from(self.word(head, 4)));
        let per_second = if self.is_nano { 1_000_000_000 } else { 1_000_000 };
        let bits = seconds * baud + (parts * baud + per_second / 2) / per_second;
        bits.saturating_sub(*self.origin.get_or_insert(bits))
    }
}

// ---- text

fn push_number(text: &mut Vec<u8>, mut number: u64) {
    let mut digits = [0; 20];
    let mut first = digits.len();
    loop {
        first -= 1;
        digits[first] = b'0' + (number % 10) as u8;
        number /= 10;
        if number == 0 {
            break;
        }
    }
    text.extend_from_slice(&digits[first..]);
}

fn push_counted(text: &mut Vec<u8>, words: &[u8], number: u64) {
    text.extend_from_slice(words);
    push_number(text, number);
}

fn push_refused(text: &mut Vec<u8>, what: &[u8], place: u64) {
    text.extend_from_slice(b"refused ");
    push_counted(text, what, place);
    text.extend_from_slice(b": ");
}

/// Appends the first bytes of an input in quotes; `?` stands for a byte that is not visible.
fn push_quoted(text: &mut Vec<u8>, bytes: &[u8]) {
    text.push(b'\'');
    text.extend(bytes.iter().take(24).map(|byte| if byte.is_ascii_graphic() { *byte } else { b'?' }));
    if bytes.len() > 24 {
        text.extend_from_slice(b"..");
    }
    text.push(b'\'');
}

fn push_timed(text: &mut Vec<u8>, burst: &Burst, bad: Option<usize>) {
    push_number(text, burst.begin);
    text.push(b' ');
    push_number(text, burst.end);
    text.push(b' ');
    push_content(text, burst, bad);
}

/// Appends a telegram and what it says, or its fault.
fn push_content(text: &mut Vec<u8>, burst: &Burst, bad: Option<usize>) {
    match &burst.telegram {
        Ok(telegram) => push_telegram(text, telegram),
        Err(Fault(number, name)) => {
            push_counted(text, b"fault ", (*number).into());
            text.push(b' ');
            text.extend_from_slice(name.as_bytes());
            if let Some(place) = bad {
                push_counted(text, b" ", place as u64);
            }
        }
    }
}

/// Appends a telegram and what it says.
fn push_telegram(text: &mut Vec<u8>, telegram: &Telegram) {
    match telegram {
        Telegram::Short(head) => {
            text.extend_from_slice(b"short");
            push_head(text, head);
            push_words(text, Control(head.fc), true);
        }
        Telegram::Data(name, head, unit) => {
            text.extend_from_slice(name.as_bytes());
            push_head(text, head);
            text.extend_from_slice(b" unit=");
            push_octets(text, unit);
            push_words(text, Control(head.fc), unit.is_empty());
        }
        Telegram::Token(da, sa) => {
            text.extend_from_slice(b"token");
            push_addresses(text, *da, *sa);
            if da == sa {
                text.extend_from_slice(b" | token to itself");
            } else {
                push_counted(text, b" | token to ", (*da).into());
            }
        }
        Telegram::Acknowledgement => text.extend_from_slice(b"ack | short acknowledgement"),
    }
}

fn push_head(text: &mut Vec<u8>, head: &Head) {
    push_addresses(text, head.da, head.sa);
    text.extend_from_slice(b" fc=");
    push_octets(text, &[head.fc]);
}

fn push_addresses(text: &mut Vec<u8>, da: u8, sa: u8) {
    for (name, octet) in [(b" da=", da), (b" sa=", sa)] {
        push_counted(text, name, (octet % 128).into());
        if octet >= 128 {
            text.push(b'+');
        }
    }
}

fn push_octets(text: &mut Vec<u8>, octets: &[u8]) {
    text.extend(octets.iter().flat_map(|octet| [DIGITS[usize::from(octet / 16)], DIGITS[usize::from(octet % 16)]]));
}

/// Appends what a control octet says.
fn push_words(text: &mut Vec<u8>, control: Control, is_empty: bool) {
    text.extend_from_slice(b" | ");
    if control.is_request() {
        push_request(text, control);
    } else {
        push_reply(text, control, is_empty);
    }
}

fn push_request(text: &mut Vec<u8>, control: Control) {
    let name: &[u8] = match control.service() {
        Service::Sda => b"SDA",
        Service::Sdn => b"SDN",
        Service::Srd => b"SRD",
        Service::Status => b"FDL status request",
        Service::Unknown => b"request with function code ",
    };
    text.extend_from_slice(name);
    match control.service() {
        Service::Status => {}
        Service::Unknown => push_number(text, control.code().into()),
        _ => text.extend_from_slice(if control.is_high() { b" high" } else { b" low" }),
    }
    let count: &[u8] = match control.0 & 0x30 {
        0x30 => b", FCB 1",
        0x20 => b", first FCB",
        0x10 => b", FCB 0",
        _ => b"",
    };
    text.extend_from_slice(count);
}

fn push_reply(text: &mut Vec<u8>, control: Control, is_empty: bool) {
    let name: &[u8] = match control.code() {
        0 => b"reply: OK",
        1 => b"reply: user error",
        2 => b"reply: no resource",
        3 => b"reply: service not activated",
        8 => b"reply: data low",
        9 => b"reply: no data",
        10 => b"reply: data high",
        12 => b"reply: data low, no resource",
        13 => b"reply: data high, no resource",
        code => return push_counted(text, b"reply: function code ", code.into()),
    };
    text.extend_from_slice(name);
    if is_empty && control.code() == 0 {
        text.extend_from_slice(b", ");
        text.extend_from_slice(Role::of(control.station_type()).name());
    }
}

// ---- summaries

/// Of raw octets none is judged.
fn push_summary(text: &mut Vec<u8>, statistics: &Statistics, form: &Form) {
    push_counted(text, b"bus: bursts ", statistics.bursts);
    if let (Some(first), Some(last)) = (statistics.first, statistics.last) {
        push_counted(text, b", from ", first);
        push_counted(text, b" to ", last);
        push_counted(text, b", load ", statistics.load() / 10);
        push_counted(text, b".", statistics.load() % 10);
        push_counted(text, b" %, longest silence ", statistics.longest_silence);
    }
    let damage = &statistics.damage;
    push_counted(text, b", damaged ", damage.after_loss + damage.taking + damage.replying + damage.other);
    push_counted(text, b" (after a loss ", damage.after_loss);
    push_counted(text, b", in place of a reply ", damage.replying);
    push_counted(text, b", in the slot of a token ", damage.taking);
    push_counted(text, b", other ", damage.other);
    match form {
        Form::Raw => text.extend_from_slice(b"), alarms not judged (raw octets)"),
        Form::Lines | Form::Pcap => push_counted(text, b"), alarms ", statistics.alarms),
    }
    push_counted(text, b", refused ", statistics.refused);
    text.extend_from_slice(b"\nactive stations:");
    match statistics.active() {
        Some(active) => active.for_each(|address| push_counted(text, b" ", address)),
        None => text.extend_from_slice(b" not known"),
    }
    text.push(b'\n');
    for (address, station) in statistics.known_stations() {
        push_station(text, address, station);
    }
}

fn push_station(text: &mut Vec<u8>, address: u64, station: &Station) {
    push_counted(text, b"station ", address);
    if station.telegrams == 0 {
        push_counted(text, b": never heard, polled ", station.polled);
        push_counted(text, b", tokens not taken ", station.tokens_not_taken);
        text.push(b'\n');
        return;
    }
    text.extend_from_slice(b": ");
    text.extend_from_slice(station.role.name());
    if let Some(moment) = station.last_heard {
        push_counted(text, b", last heard ", moment);
    }
    push_counted(text, b", telegrams ", station.telegrams);
    push_counted(text, b", claims ", station.claims);
    push_counted(text, b", tokens ", station.tokens);
    push_counted(text, b", requests ", station.requests);
    push_counted(text, b" (polls ", station.polls);
    push_counted(text, b", unanswered ", station.unanswered);
    push_counted(text, b", damaged answers ", station.damaged_answers);
    push_counted(text, b"), repeats ", station.repeats);
    push_counted(text, b", polled ", station.polled);
    push_counted(text, b", tokens not taken ", station.tokens_not_taken);
    push_spread(text, b", rotation ", &station.rotation);
    push_spread(text, b", takes after ", &station.taking);
    push_spread(text, b", replies after ", &station.replying);
    text.push(b'\n');
}

fn push_spread(text: &mut Vec<u8>, words: &[u8], spread: &Spread) {
    if spread.count == 0 {
        return;
    }
    push_counted(text, words, spread.least);
    push_counted(text, b"/", spread.mean());
    push_counted(text, b"/", spread.greatest);
    push_counted(text, b" (", spread.count);
    text.push(b')');
}

fn push_json(text: &mut Vec<u8>, statistics: &Statistics, form: &Form) {
    let damage = &statistics.damage;
    push_counted(text, b"{\"bursts\":", statistics.bursts);
    push_moment(text, b",\"first\":", statistics.first);
    push_moment(text, b",\"last\":", statistics.last);
    push_counted(text, b",\"load_per_mille\":", statistics.load());
    push_counted(text, b",\"longest_silence\":", statistics.longest_silence);
    push_counted(text, b",\"damaged\":{\"after_loss\":", damage.after_loss);
    push_counted(text, b",\"reply\":", damage.replying);
    push_counted(text, b",\"token\":", damage.taking);
    push_counted(text, b",\"other\":", damage.other);
    match form {
        Form::Raw => text.extend_from_slice(b"},\"alarms\":null"),
        Form::Lines | Form::Pcap => push_counted(text, b"},\"alarms\":", statistics.alarms),
    }
    push_counted(text, b",\"refused\":", statistics.refused);
    text.extend_from_slice(b",\"active\":");
    match statistics.active() {
        Some(active) => push_list(text, active, push_number),
        None => text.extend_from_slice(b"null"),
    }
    text.extend_from_slice(b",\"stations\":");
    push_list(text, statistics.known_stations(), push_json_station);
    text.extend_from_slice(b"}\n");
}

fn push_list<T>(text: &mut Vec<u8>, items: impl Iterator<Item = T>, push: impl Fn(&mut Vec<u8>, T)) {
    text.push(b'[');
    for (place, item) in items.enumerate() {
        if place > 0 {
            text.push(b',');
        }
        push(text, item);
    }
    text.push(b']');
}

fn push_json_station(text: &mut Vec<u8>, (address, station): (u64, &Station)) {
    push_counted(text, b"{\"address\":", address);
    text.extend_from_slice(b",\"role\":\"");
    text.extend_from_slice(station.role.name());
    push_moment(text, b"\",\"last_heard\":", station.last_heard);
    push_counted(text, b",\"telegrams\":", station.telegrams);
    push_counted(text, b",\"claims\":", station.claims);
    push_counted(text, b",\"tokens\":", station.tokens);
    push_counted(text, b",\"requests\":", station.requests);
    push_counted(text, b",\"polls\":", station.polls);
    push_counted(text, b",\"unanswered\":", station.unanswered);
    push_counted(text, b",\"damaged_answers\":", station.damaged_answers);
    push_counted(text, b",\"repeats\":", station.repeats);
    push_counted(text, b",\"polled\":", station.polled);
    push_counted(text, b",\"tokens_not_taken\":", station.tokens_not_taken);
    push_json_spread(text, b",\"rotation\":", &station.rotation);
    push_json_spread(text, b",\"taking\":", &station.taking);
    push_json_spread(text, b",\"replying\":", &station.replying);
    text.push(b'}');
}

fn push_moment(text: &mut Vec<u8>, name: &[u8], moment: Option<u64>) {
    text.extend_from_slice(name);
    match moment {
        Some(moment) => push_number(text, moment),
        None => text.extend_from_slice(b"null"),
    }
}

fn push_json_spread(text: &mut Vec<u8>, name: &[u8], spread: &Spread) {
    text.extend_from_slice(name);
    if spread.count == 0 {
        return text.extend_from_slice(b"null");
    }
    push_counted(text, b"{\"count\":", spread.count);
    push_counted(text, b",\"least\":", spread.least);
    push_counted(text, b",\"mean\":", spread.mean());
    push_counted(text, b",\"greatest\":", spread.greatest);
    text.push(b'}');
}
