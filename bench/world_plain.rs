//! The jobs of `event_player`, and of `ringplay run`, `audit` and `stream`, in plain Rust, written for speed, with std alone
//! and no proofs: what the bench measures a world and the program against.
//!
//!     world_plain < LIST                  all that comes of an event list
//!     world_plain trace TIMES < LIST      plays it so many times, each to its first refused event; the last trace
//!     world_plain audit TIMES < LIST      audits it so many times; what the last found
//!     world_plain make KIND BITS          an event list: see `kind_of`
//!     world_plain run < FILE              the trace of a scenario file as `scenarios.py` writes it
//!     world_plain audit < FILE            what an audit of its run finds
//!     world_plain stream < FILE           the trace as it settles; entries that are over are let go, their octets are not
//!
//! With the feature `toml` it reads a scenario file by the crate toml (`toml_files.rs`).
//!
//! A telegram's octets are written once, behind all that were sent before (`Air`). What a tap hears is read once for
//! all taps. Sets of addresses and of taps are masks.

#![cfg_attr(feature = "toml", allow(dead_code))]

#[cfg(feature = "toml")]
mod toml_files;

use std::collections::VecDeque;
use std::env;
use std::fmt::{self, Display, Write as _};
use std::io::{self, Read, Write};
use std::process::ExitCode;
#[cfg(feature = "toml")]
use toml_files::scenario_of;

const CLOCK_LIMIT: u64 = 1_000_000_000_000;
const TRACE_LIMIT: usize = 100_000;
const MARK_LIMIT: usize = 64;
const QUEUE_LIMIT: usize = 16;
const TAP_LIMIT: usize = 127;
/// How many entries a stream writes at once, at least.
const BLOCK: usize = 64;
/// How often a token is tried at each successor.
const TRIES: u8 = 3;
/// How many tokens may skip a station in the ring before it listens anew.
const SKIPS: u8 = 2;
/// The destination address that means all stations.
const ALL: u8 = 127;

fn main() -> ExitCode {
    let words: Vec<String> = env::args().skip(1).collect();
    let words: Vec<&str> = words.iter().map(String::as_str).collect();
    let text = match words[..] {
        [] => read_list().and_then(|list| play(&list)),
        ["trace", times] => read_list().and_then(|list| traces(&list, number(times)?)),
        ["audit", times] => read_list().and_then(|list| audits(&list, number(times)?)),
        ["make", kind, bits] => number(bits).and_then(|bits| make(kind, bits)),
        ["run"] => read_scenario().and_then(|scenario| run(scenario, None)),
        ["audit"] => read_scenario().and_then(|scenario| run(scenario, Some(Watch::new()))),
        ["stream"] => read_scenario().and_then(stream),
        _ => Err(Fault::List(
            "usage: world_plain [trace TIMES | audit TIMES] < LIST, make KIND BITS, or run | audit | stream < FILE".into(),
        )),
    };
    match text {
        Ok(text) => match io::stdout().lock().write_all(text.as_bytes()) {
            Ok(()) => ExitCode::SUCCESS,
            Err(_) => ExitCode::from(3),
        },
        Err(Fault::List(words)) => {
            eprintln!("world_plain: {words}");
            ExitCode::from(2)
        }
        Err(Fault::Bus(line)) => {
            println!("{line}");
            ExitCode::from(1)
        }
    }
}

/// Why there is nothing to print.
enum Fault {
    /// No event list, or other words.
    List(String),
    /// The parameters or the taps are refused.
    Bus(String),
}

fn number(word: &str) -> Result<u64, Fault> {
    word.parse().map_err(|_| Fault::List(format!("no number: {word}")))
}

// ---- parameters, taps, events

#[derive(Clone, Copy)]
struct Params {
    tsl: u64,
    tid1: u64,
    tid2: u64,
    tsdr: u64,
    lag: u64,
    ttr: u64,
    gap: u64,
    hsa: u8,
    retries: u8,
}

/// Bus parameters as they are written.
const USUAL: [(&str, u64); 10] = [
    ("tsl", 100),
    ("tid1", 37),
    ("tid2", 60),
    ("tsdr", 11),
    ("lag", 0),
    ("ttr", 10_000),
    ("gap", 10),
    ("hsa", 5),
    ("retries", 1),
    ("ttd", 0),
];

impl Params {
    /// The parameters, or the first rule that they break.
    fn new(written: &[(&str, u64); 10]) -> Result<Params, Fault> {
        let [tsl, tid1, tid2, tsdr, lag, ttr, gap, hsa, retries, _] = written.map(|(_, value)| value);
        let rules = [
            ((100..=16_383).contains(&tsl), "Slot"),
            (tid1 >= 33, "IdleShort"),
            (tid2 >= tid1, "IdleOrder"),
            (tsdr >= 11, "ReplyShort"),
            ((256..=16_777_215).contains(&ttr), "Rotation"),
            ((1..=100).contains(&gap), "GapFactor"),
            ((2..=126).contains(&hsa), "Highest"),
            (retries <= 7, "Retries"),
            (tid2 + lag < tsl, "TakeLate"),
            (tsdr + lag < tsl, "ReplyLate"),
        ];
        match rules.iter().position(|(kept, _)| !kept) {
            Some(place) => Err(Fault::Bus(format!("param fault {} {}", place + 1, rules[place].1))),
            None => {
                Ok(Params { tsl, tid1, tid2, tsdr, lag, ttr, gap, hsa: hsa as u8, retries: retries as u8 })
            }
        }
    }

    /// How long a station waits in silence before it claims the token.
    fn tto(&self, address: u8) -> u64 {
        6 * self.tsl + 2 * u64::from(address) * self.tsl
    }
}

#[derive(Clone)]
struct TapSpec {
    master: bool,
    address: u8,
    reply: Vec<u8>,
}

enum Event {
    Turn(usize),
    Pass(u64),
    Damage { tap: usize, speaker: usize, place: Option<u8> },
    Start(usize),
    Stop(usize),
    Queue { tap: usize, request: Request },
    Noise(u32),
    Unheard { tap: usize, speaker: usize },
}

#[derive(Clone, Copy, PartialEq)]
enum Service {
    Sda,
    Sdn,
    Srd,
}

impl Service {
    fn name(self) -> &'static str {
        match self {
            Service::Sda => "sda",
            Service::Sdn => "sdn",
            Service::Srd => "srd",
        }
    }

    /// The function code of a request.
    fn code(self, high: bool) -> u8 {
        match (self, high) {
            (Service::Sda, false) => 3,
            (Service::Sda, true) => 5,
            (Service::Sdn, false) => 4,
            (Service::Sdn, true) => 6,
            (Service::Srd, false) => 12,
            (Service::Srd, true) => 13,
        }
    }
}

#[derive(Clone)]
struct Request {
    da: u8,
    service: Service,
    high: bool,
    unit: Vec<u8>,
}

/// Why an event is refused.
enum Refusal {
    NoSuchTap,
    Running,
    NotRunning,
    NothingInAir,
    ZeroTime,
    TooFar(u64),
    ClockFull,
    QueueFull,
    InboxFull(usize),
    TraceFull,
}

impl Display for Refusal {
    fn fmt(&self, f: &mut fmt::Formatter<'_>) -> fmt::Result {
        match self {
            Refusal::NoSuchTap => write!(f, "1 NoSuchTap"),
            Refusal::Running => write!(f, "2 Running"),
            Refusal::NotRunning => write!(f, "3 NotRunning"),
            Refusal::NothingInAir => write!(f, "4 NothingInAir"),
            Refusal::ZeroTime => write!(f, "5 ZeroTime"),
            Refusal::TooFar(end) => write!(f, "6 TooFar {end}"),
            Refusal::ClockFull => write!(f, "7 ClockFull"),
            Refusal::QueueFull => write!(f, "8 QueueFull"),
            Refusal::InboxFull(tap) => write!(f, "9 InboxFull {tap}"),
            Refusal::TraceFull => write!(f, "10 TraceFull"),
        }
    }
}

// ---- telegrams

/// All octets that were sent, one telegram behind the other.
type Air = Vec<u8>;

/// Octets in the air.
#[derive(Clone, Copy)]
struct Piece {
    from: usize,
    len: usize,
}

impl Piece {
    fn of(self, air: &Air) -> &[u8] {
        &air[self.from..self.from + self.len]
    }
}

#[derive(Clone, Copy)]
enum Telegram {
    Token { da: u8, sa: u8 },
    Ack,
    Framed(Frame),
}

/// A telegram with a control octet.
#[derive(Clone, Copy)]
struct Frame {
    da: u8,
    sa: u8,
    fc: u8,
    unit: Piece,
}

impl Frame {
    fn is_request(&self) -> bool {
        self.fc & 0x40 != 0
    }

    fn code(&self) -> u8 {
        self.fc & 0x0f
    }

    /// Whether it is a reply of one station to another.
    fn replies(&self, from: u8, to: u8) -> bool {
        let known = matches!(self.code(), 0..=3 | 8..=10 | 12 | 13);
        !self.is_request() && self.da & 0x7f == to && self.sa & 0x7f == from && known
    }
}

/// The telegram that a piece of the air spells, if it spells one.
fn parse(air: &Air, piece: Piece) -> Option<Telegram> {
    let octets = piece.of(air);
    let unit = |from, len| Piece { from: piece.from + from, len };
    match *octets {
        [0xdc, da, sa] if da <= 126 && sa <= 126 => Some(Telegram::Token { da, sa }),
        [0xe5] => Some(Telegram::Ack),
        [0x10, ref body @ .., fcs, 0x16] if body.len() == 3 => framed(body, fcs, unit(4, 0)),
        [0xa2, ref body @ .., fcs, 0x16] if body.len() == 11 => framed(body, fcs, unit(4, 8)),
        [0x68, le, again, 0x68, ref body @ .., fcs, 0x16]
            if le == again && (4..=249).contains(&le) && body.len() == usize::from(le) =>
        {
            framed(body, fcs, unit(7, body.len() - 3))
        }
        _ => None,
    }
}

fn framed(body: &[u8], fcs: u8, unit: Piece) -> Option<Telegram> {
    let (da, sa, fc) = (body[0], body[1], body[2]);
    let is_sound = sa & 0x7f != ALL && fc & 0x80 == 0 && checksum(body) == fcs;
    is_sound.then_some(Telegram::Framed(Frame { da, sa, fc, unit }))
}

fn checksum(body: &[u8]) -> u8 {
    body.iter().fold(0, |sum, octet| sum.wrapping_add(*octet))
}

/// Sends a telegram with a control octet: without data a short one, with eight octets one of fixed length.
fn push_frame(air: &mut Air, da: u8, sa: u8, fc: u8, unit: &[u8]) {
    let begin = match unit.len() {
        0 => {
            air.push(0x10);
            air.len()
        }
        8 => {
            air.push(0xa2);
            air.len()
        }
        len => {
            let le = len as u8 + 3;
            air.extend_from_slice(&[0x68, le, le, 0x68]);
            air.len()
        }
    };
    air.extend_from_slice(&[da, sa, fc]);
    air.extend_from_slice(unit);
    let fcs = checksum(&air[begin..]);
    air.extend_from_slice(&[fcs, 0x16]);
}

// ---- sets of addresses

/// Addresses 0 to 126, a bit for each.
type Addresses = u128;

const ALL_STATIONS: Addresses = (1 << 127) - 1;

fn only(address: u8) -> Addresses {
    1 << address
}

fn above(address: u8) -> Addresses {
    ALL_STATIONS & !((2 << address) - 1)
}

fn below(address: u8) -> Addresses {
    only(address) - 1
}

/// The addresses strictly between two, upwards and round; between equal ones all others.
fn between(from: u8, to: u8) -> Addresses {
    if from < to { above(from) & below(to) } else { (above(from) | below(to)) & !only(from) }
}

/// The first of some addresses behind one, upwards and round.
fn first_behind(set: Addresses, address: u8) -> Option<u8> {
    let behind = set & above(address);
    let first = if behind != 0 { behind } else { set };
    (first != 0).then(|| first.trailing_zeros() as u8)
}

fn last_before(set: Addresses, address: u8) -> Option<u8> {
    let before = set & below(address);
    let last = if before != 0 { before } else { set };
    (last != 0).then(|| 127 - last.leading_zeros() as u8)
}

// ---- list of active stations, GAP list, rotation

#[derive(Clone)]
struct Las {
    members: Addresses,
    is_complete: bool,
    /// The source and the destination of the last token heard.
    last: Option<(u8, u8)>,
    current: Addresses,
    closed: Option<Addresses>,
    /// The own address, in the ring.
    own: Option<u8>,
    skipped: u8,
}

impl Las {
    fn listening() -> Las {
        Las { members: 0, is_complete: false, last: None, current: 0, closed: None, own: None, skipped: 0 }
    }

    fn claimed(own: u8) -> Las {
        Las { members: only(own), is_complete: true, own: Some(own), ..Las::listening() }
    }

    fn hear(&mut self, sa: u8, da: u8) {
        let is_retry = sa != da && self.last == Some((sa, da));
        self.last = Some((sa, da));
        if is_retry {
            return;
        }
        if self.is_complete {
            self.correct(sa, da);
        } else {
            self.learn(sa, da);
        }
    }

    fn learn(&mut self, sa: u8, da: u8) {
        self.current |= only(sa);
        if da <= sa {
            if self.closed == Some(self.current) {
                self.is_complete = true;
                self.members = self.current;
            }
            self.closed = Some(self.current);
            self.current = 0;
        }
    }

    fn correct(&mut self, sa: u8, da: u8) {
        let passed = between(sa, da);
        let mut gone = passed;
        if let Some(own) = self.own {
            gone &= !only(own);
            if own == sa || own == da {
                self.skipped = 0;
            } else if passed & only(own) != 0 {
                self.skipped = self.skipped.saturating_add(1);
            }
        }
        self.members = self.members & !gone | only(sa) | only(da);
    }

    fn next(&self, own: u8) -> u8 {
        first_behind(self.members, own).unwrap_or(own)
    }

    fn previous(&self, own: u8) -> u8 {
        last_before(self.members, own).unwrap_or(own)
    }

    /// The station joins the ring.
    fn join(&mut self, own: u8) {
        self.own = Some(own);
        self.skipped = 0;
        self.members |= only(own);
    }
}

#[derive(Clone)]
enum Gap {
    /// A round, with the last address that it asked.
    Open(Option<u8>),
    Closed(u64),
}

impl Gap {
    fn is_due(&self, now: u64, params: &Params) -> bool {
        match self {
            Gap::Open(_) => true,
            Gap::Closed(at) => now >= at + params.gap * params.ttr,
        }
    }

    /// The next address that is to be asked. Where none is left, the round closes.
    fn next(&mut self, own: u8, ns: u8, hsa: u8, now: u64) -> Option<u8> {
        let last = match self {
            Gap::Open(last) => last.unwrap_or(own),
            Gap::Closed(_) => own,
        };
        let range = between(own, ns) & !above(hsa) & between(last, own);
        let next = first_behind(range, last);
        *self = match next {
            Some(address) => Gap::Open(Some(address)),
            None => Gap::Closed(now),
        };
        next
    }
}

#[derive(Clone)]
struct Rotation {
    /// The last receipt, and the one before it, or itself where it is the first.
    last: Option<u64>,
    previous: u64,
    is_high_started: bool,
}

impl Rotation {
    fn new() -> Rotation {
        Rotation { last: None, previous: 0, is_high_started: false }
    }

    fn received(&mut self, at: u64) {
        self.previous = self.last.unwrap_or(at);
        self.last = Some(at);
        self.is_high_started = false;
    }

    fn may_low(&self, now: u64, params: &Params) -> bool {
        self.previous + params.ttr > now
    }

    fn may_high(&self, now: u64, params: &Params) -> bool {
        !self.is_high_started || self.may_low(now, params)
    }
}

// ---- message cycles

/// What became of a request. A station keeps it, though no list asks for it.
#[derive(Clone)]
#[allow(dead_code)]
enum Outcome {
    Acked,
    Data(Vec<u8>),
    NoResource,
    NoAnswer,
}

/// What a station keeps of the requests that it sends.
#[derive(Clone)]
struct Initiator {
    /// The addresses to which requests went, and whether the last had its frame count bit set.
    counted: u128,
    was_set: u128,
    /// The station of the open request, with the retries that it has used.
    open: Option<(u8, u8)>,
    /// Its octets.
    octets: Vec<u8>,
    last_outcome: Option<(u8, Outcome)>,
}

impl Initiator {
    fn new() -> Initiator {
        Initiator { counted: 0, was_set: 0, open: None, octets: Vec::with_capacity(255), last_outcome: None }
    }

    /// Sends a request.
    fn request(&mut self, air: &mut Air, ts: u8, request: &Request) {
        let code = 0x40 | request.service.code(request.high);
        if request.service == Service::Sdn {
            self.open = None;
            return push_frame(air, request.da, ts, code, &request.unit);
        }
        let bit = 1 << request.da;
        let count = match (self.counted & bit != 0, self.was_set & bit != 0) {
            (false, _) => 0x20,
            (true, true) => 0x10,
            (true, false) => 0x30,
        };
        self.counted |= bit;
        self.was_set = if count & 0x20 != 0 { self.was_set | bit } else { self.was_set & !bit };
        let begin = air.len();
        push_frame(air, request.da, ts, code | count, &request.unit);
        self.octets.clear();
        self.octets.extend_from_slice(&air[begin..]);
        self.open = Some((request.da, 0));
    }

    fn is_retry_left(&self, params: &Params) -> bool {
        self.open.is_some_and(|(_, used)| used < params.retries)
    }

    /// Sends the open request again.
    fn again(&mut self, air: &mut Air) {
        if let Some((_, used)) = &mut self.open {
            *used += 1;
        }
        air.extend_from_slice(&self.octets);
    }

    fn give_up(&mut self) {
        if let Some((da, _)) = self.open.take() {
            self.counted &= !(1 << da);
            self.last_outcome = Some((da, Outcome::NoAnswer));
        }
    }

    /// Whether a telegram is a reply to the open request, which has its outcome then.
    fn hear(&mut self, air: &Air, ts: u8, telegram: Telegram) -> bool {
        let Some((da, _)) = self.open else {
            return false;
        };
        let outcome = match telegram {
            Telegram::Ack => Outcome::Acked,
            Telegram::Framed(frame) if frame.replies(da, ts) => match frame.code() {
                0 | 9 => Outcome::Acked,
                8 | 10 | 12 | 13 => Outcome::Data(frame.unit.of(air).to_vec()),
                1..=3 => Outcome::NoResource,
                _ => return false,
            },
            _ => return false,
        };
        self.last_outcome = Some((da, outcome));
        self.open = None;
        true
    }
}

/// What a station keeps of the requests that it answers.
#[derive(Clone)]
struct Responder {
    data: Vec<u8>,
    /// The requester and the frame count bit of the last request, whose reply is in `kept`.
    last: Option<(u8, bool)>,
    kept: Air,
    executed: u64,
}

impl Responder {
    fn new(data: Vec<u8>) -> Responder {
        Responder { data, last: None, kept: Vec::with_capacity(255), executed: 0 }
    }

    /// Answers a request, if it is one to this station that wants an answer: writes it, and tells whether it has.
    fn answer(&mut self, ts: u8, station_type: u8, frame: &Frame, reply: &mut Air) -> bool {
        let (to, from) = (frame.da & 0x7f, frame.sa & 0x7f);
        if matches!(frame.code(), 4 | 6) && (to == ts || to == ALL) {
            self.executed = self.executed.saturating_add(1);
        }
        if to != ts {
            return false;
        }
        match frame.code() {
            9 => {
                reply.clear();
                push_frame(reply, from, ts, station_type << 4, &[]);
            }
            3 | 5 | 12 | 13 => {
                self.execute(ts, station_type, frame);
                reply.clear();
                reply.extend_from_slice(&self.kept);
            }
            _ => return false,
        }
        true
    }

    /// Executes a request, unless it is one that was executed before.
    fn execute(&mut self, ts: u8, station_type: u8, frame: &Frame) {
        let from = frame.sa & 0x7f;
        let (fcb, fcv) = (frame.fc & 0x20 != 0, frame.fc & 0x10 != 0);
        if fcv && self.last == Some((from, fcb)) {
            return;
        }
        self.executed = self.executed.saturating_add(1);
        self.last = Some((from, fcb));
        self.kept.clear();
        let (kind, data) = match frame.code() {
            _ if frame.da & 0x80 != 0 => (3, &[][..]),
            3 | 5 => return self.kept.push(0xe5),
            _ if self.data.is_empty() => (9, &[][..]),
            12 => (8, &self.data[..]),
            _ => (10, &self.data[..]),
        };
        push_frame(&mut self.kept, from, ts, station_type << 4 | kind, data);
    }
}

// ---- stations

/// What a station hears.
#[derive(Clone, Copy)]
struct Mark {
    at: u64,
    /// The clock when it was told.
    seen: u64,
    what: Heard,
}

#[derive(Clone, Copy)]
enum Heard {
    Begin,
    /// With the telegram that the characters spell.
    End(Option<Telegram>),
}

#[derive(Clone, Copy)]
enum Phase {
    Offline,
    PassiveIdle,
    Listening {
        is_doubled: bool,
    },
    /// With the source of the last token that it has refused.
    Idle {
        refused: Option<u8>,
    },
    Claim {
        is_second: bool,
        ready: u64,
    },
    Use {
        has_asked: bool,
        ready: u64,
    },
    AwaitData {
        has_asked: bool,
        ready: Option<u64>,
        slot: bool,
    },
    AwaitStatus {
        of: u8,
        slot: bool,
    },
    Pass {
        tries: u8,
        ready: u64,
    },
    Checking {
        tries: u8,
    },
}

impl Phase {
    fn name(self) -> &'static str {
        match self {
            Phase::Offline => "Offline",
            Phase::PassiveIdle => "PassiveIdle",
            Phase::Listening { .. } => "Listening",
            Phase::Idle { .. } => "Idle",
            Phase::Claim { .. } => "Claim",
            Phase::Use { .. } => "Use",
            Phase::AwaitData { .. } => "AwaitData",
            Phase::AwaitStatus { .. } => "AwaitStatus",
            Phase::Pass { .. } => "Pass",
            Phase::Checking { .. } => "Checking",
        }
    }
}

const IDLE: Phase = Phase::Idle { refused: None };

#[derive(Clone)]
struct Station {
    address: u8,
    is_master: bool,
    phase: Phase,
    is_busy: bool,
    quiet: u64,
    /// When the own last telegram began and ended.
    begin: u64,
    end: u64,
    /// When a reply is sent, and whether with it the station joins the ring; its octets are in `reply_octets`.
    reply: Option<(u64, bool)>,
    reply_octets: Air,
    las: Las,
    gap: Gap,
    rotation: Rotation,
    high: VecDeque<Request>,
    low: VecDeque<Request>,
    initiator: Initiator,
    responder: Responder,
}

impl Station {
    fn new(spec: &TapSpec) -> Station {
        Station {
            address: spec.address,
            is_master: spec.master,
            phase: Phase::Offline,
            is_busy: false,
            quiet: 0,
            begin: 0,
            end: 0,
            reply: None,
            reply_octets: Vec::with_capacity(255),
            las: Las::listening(),
            gap: Gap::Open(None),
            rotation: Rotation::new(),
            high: VecDeque::with_capacity(QUEUE_LIMIT),
            low: VecDeque::with_capacity(QUEUE_LIMIT),
            initiator: Initiator::new(),
            responder: Responder::new(spec.reply.clone()),
        }
    }

    fn start(&mut self, now: u64) {
        self.phase = if self.is_master { Phase::Listening { is_doubled: false } } else { Phase::PassiveIdle };
        self.is_busy = false;
        (self.quiet, self.begin, self.end) = (now, now, now);
        self.reply = None;
        self.las = Las::listening();
        self.gap = Gap::Open(None);
        self.rotation = Rotation::new();
        self.high.clear();
        self.low.clear();
        self.initiator = Initiator::new();
        self.responder = Responder::new(std::mem::take(&mut self.responder.data));
    }

    fn stop(&mut self) {
        self.phase = Phase::Offline;
        self.reply = None;
    }

    /// When it has to take its turn.
    fn due(&self, params: &Params, marks: &[Mark]) -> Option<u64> {
        let seen = marks.first().map(|mark| mark.seen);
        sooner(seen, sooner(self.timer(params), self.speaks_at()))
    }

    fn timer(&self, params: &Params) -> Option<u64> {
        if self.is_busy {
            return None;
        }
        match self.phase {
            Phase::Listening { .. } | Phase::Idle { .. } => Some(self.quiet + params.tto(self.address)),
            Phase::AwaitData { slot: true, .. }
            | Phase::AwaitStatus { slot: true, .. }
            | Phase::Checking { .. } => Some(self.end + params.tsl),
            _ => None,
        }
    }

    fn speaks_at(&self) -> Option<u64> {
        match self.phase {
            Phase::PassiveIdle | Phase::Listening { .. } | Phase::Idle { .. } => self.reply.map(|(at, _)| at),
            Phase::Claim { ready, .. } | Phase::Use { ready, .. } | Phase::Pass { ready, .. } => Some(ready),
            Phase::AwaitData { ready, .. } => ready,
            Phase::Offline | Phase::AwaitStatus { .. } | Phase::Checking { .. } => None,
        }
    }

    /// Takes its turn: reads its marks and timers in order of time, and sends what it says. Whether it has spoken.
    fn turn(&mut self, params: &Params, marks: &[Mark], air: &mut Air, now: u64) -> bool {
        for mark in marks {
            self.after_timer(params, mark.at);
            match mark.what {
                Heard::Begin => self.begins(mark.at),
                Heard::End(telegram) => self.ends(params, air, mark.at, telegram),
            }
        }
        self.after_timer(params, now + 1);
        match self.speaks_at() {
            Some(moment) if moment <= now => {
                self.speak(params, air, now);
                true
            }
            _ => false,
        }
    }

    /// The timer ends, if it does before a limit.
    fn after_timer(&mut self, params: &Params, limit: u64) {
        let Some(at) = self.timer(params).filter(|at| *at < limit) else {
            return;
        };
        match &mut self.phase {
            Phase::Listening { .. } | Phase::Idle { .. } => {
                self.reply = None;
                self.las = Las::claimed(self.address);
                self.gap = Gap::Open(None);
                self.rotation = Rotation::new();
                self.phase = Phase::Claim { is_second: false, ready: at };
            }
            Phase::Checking { tries } => {
                let mut tries = *tries;
                if tries >= TRIES {
                    self.las.members &= !only(self.las.next(self.address));
                    tries = 0;
                }
                self.phase = Phase::Pass { tries, ready: at };
            }
            Phase::AwaitData { slot, .. } => {
                *slot = false;
                self.no_reply(params, at);
            }
            _ => self.no_reply(params, at),
        }
    }

    fn begins(&mut self, at: u64) {
        if matches!(self.phase, Phase::Offline) {
            return;
        }
        self.is_busy = true;
        let is_since_own = at >= self.begin;
        match &mut self.phase {
            Phase::PassiveIdle | Phase::Listening { .. } | Phase::Idle { .. } => self.reply = None,
            Phase::Claim { .. } | Phase::Use { .. } | Phase::Pass { .. } => self.phase = IDLE,
            Phase::Checking { .. } if is_since_own => self.phase = IDLE,
            Phase::AwaitData { ready, slot, .. } => {
                *ready = None;
                *slot &= !is_since_own;
            }
            Phase::AwaitStatus { slot, .. } => *slot &= !is_since_own,
            _ => {}
        }
    }

    fn ends(&mut self, params: &Params, air: &Air, at: u64, telegram: Option<Telegram>) {
        if matches!(self.phase, Phase::Offline) {
            return;
        }
        self.is_busy = false;
        self.quiet = self.quiet.max(at);
        match (self.phase, telegram) {
            (Phase::AwaitData { .. } | Phase::AwaitStatus { .. }, telegram) => {
                self.ends_awaiting(params, air, at, telegram);
            }
            (Phase::PassiveIdle, Some(Telegram::Framed(frame))) => self.asked(params, at, &frame, 0),
            (Phase::Idle { .. }, Some(Telegram::Framed(frame))) => self.asked(params, at, &frame, 3),
            (Phase::Listening { .. }, Some(Telegram::Framed(frame))) => {
                self.asked_listening(params, at, &frame)
            }
            (Phase::PassiveIdle, _) => {}
            (_, Some(Telegram::Token { da, sa })) => self.hears_token(params, at, da, sa),
            _ => {}
        }
    }

    fn hears_token(&mut self, params: &Params, at: u64, da: u8, sa: u8) {
        let own = self.address;
        let previous = self.las.previous(own);
        self.las.hear(sa, da);
        match self.phase {
            Phase::Listening { is_doubled: true } if sa == own => self.phase = Phase::Offline,
            Phase::Listening { .. } if sa == own => self.phase = Phase::Listening { is_doubled: true },
            Phase::Idle { refused } if da == own => {
                if sa == previous || refused == Some(sa) {
                    self.rotation.received(at);
                    self.phase = Phase::Use { has_asked: false, ready: at + params.tid1 };
                } else {
                    self.phase = Phase::Idle { refused: Some(sa) };
                }
            }
            Phase::Idle { .. } if self.las.skipped >= SKIPS => {
                self.las = Las::listening();
                self.reply = None;
                self.phase = Phase::Listening { is_doubled: false };
            }
            _ => {}
        }
    }

    fn asked(&mut self, params: &Params, at: u64, frame: &Frame, station_type: u8) {
        if !frame.is_request() {
            return;
        }
        if self.responder.answer(self.address, station_type, frame, &mut self.reply_octets) {
            self.reply = Some((at + params.tsdr, false));
        }
    }

    /// One that listens only says whether it is ready for the ring.
    fn asked_listening(&mut self, params: &Params, at: u64, frame: &Frame) {
        if !frame.is_request() || frame.code() != 9 || frame.da & 0x7f != self.address {
            return;
        }
        let is_ready = self.las.is_complete;
        let fc = if is_ready { 0x20 } else { 0x10 };
        self.reply_octets.clear();
        push_frame(&mut self.reply_octets, frame.sa & 0x7f, self.address, fc, &[]);
        self.reply = Some((at + params.tsdr, is_ready));
    }

    /// An End where a reply is awaited: another's token or request ends the use of the token.
    fn ends_awaiting(&mut self, params: &Params, air: &Air, at: u64, telegram: Option<Telegram>) {
        let late = at.max(self.end) + params.tid1;
        match (self.phase, telegram) {
            (_, Some(Telegram::Token { da, sa })) => {
                self.las.hear(sa, da);
                self.phase = IDLE;
            }
            (_, Some(Telegram::Framed(frame))) if frame.is_request() => self.phase = IDLE,
            (Phase::AwaitStatus { of, .. }, Some(Telegram::Framed(frame)))
                if frame.replies(of, self.address) =>
            {
                if frame.fc & 0x3f == 0x20 {
                    self.las.members |= only(of);
                }
                self.phase = Phase::Use { has_asked: true, ready: at + params.tid1 };
            }
            (Phase::AwaitData { has_asked, .. }, Some(telegram))
                if self.initiator.hear(air, self.address, telegram) =>
            {
                self.phase = Phase::Use { has_asked, ready: at + params.tid1 };
            }
            _ => self.no_reply(params, late),
        }
    }

    /// No reply came: the request is sent again at a moment, if a retry is left, or the token is used again then.
    fn no_reply(&mut self, params: &Params, at: u64) {
        match &mut self.phase {
            Phase::AwaitData { ready, .. } if self.initiator.is_retry_left(params) => *ready = Some(at),
            Phase::AwaitData { has_asked, .. } => {
                self.phase = Phase::Use { has_asked: *has_asked, ready: at };
                self.initiator.give_up();
            }
            _ => self.phase = Phase::Use { has_asked: true, ready: at },
        }
    }

    fn speak(&mut self, params: &Params, air: &mut Air, now: u64) {
        match self.phase {
            Phase::Claim { is_second, .. } => self.claim(params, air, now, is_second),
            Phase::Use { has_asked, .. } => self.use_token(params, air, now, has_asked),
            Phase::Pass { tries, .. } => self.pass_token(params, air, now, tries),
            Phase::AwaitData { has_asked, .. } => {
                let from = air.len();
                self.initiator.again(air);
                self.said(now, air.len() - from);
                self.phase = Phase::AwaitData { has_asked, ready: None, slot: true };
            }
            _ => self.say_reply(air, now),
        }
    }

    /// Notes a telegram of so many octets.
    fn said(&mut self, now: u64, octets: usize) {
        self.begin = now;
        self.end = now + 11 * octets as u64;
        self.quiet = self.quiet.max(self.end);
    }

    fn say_reply(&mut self, air: &mut Air, now: u64) {
        air.extend_from_slice(&self.reply_octets);
        self.said(now, self.reply_octets.len());
        if let Some((_, true)) = self.reply.take() {
            self.las.join(self.address);
            self.gap = Gap::Open(None);
            self.rotation = Rotation::new();
            self.phase = IDLE;
        }
    }

    /// The token goes to the own address; the second time it is used.
    fn claim(&mut self, params: &Params, air: &mut Air, now: u64, is_second: bool) {
        air.extend_from_slice(&[0xdc, self.address, self.address]);
        self.said(now, 3);
        let ready = self.end + params.tid1;
        if is_second {
            self.rotation.received(self.end);
            self.phase = Phase::Use { has_asked: false, ready };
        } else {
            self.phase = Phase::Claim { is_second: true, ready };
        }
    }

    /// A request, of high priority first, a look into the GAP, or the token.
    fn use_token(&mut self, params: &Params, air: &mut Air, now: u64, has_asked: bool) {
        let may_low = self.rotation.may_low(now, params);
        if !self.high.is_empty() && self.rotation.may_high(now, params) {
            self.rotation.is_high_started = true;
            if let Some(request) = self.high.pop_front() {
                return self.send_request(params, air, now, has_asked, &request);
            }
        } else if may_low && let Some(request) = self.low.pop_front() {
            return self.send_request(params, air, now, has_asked, &request);
        }
        if may_low && !has_asked && self.gap.is_due(now, params) {
            let ns = self.las.next(self.address);
            if let Some(of) = self.gap.next(self.address, ns, params.hsa, now) {
                push_frame(air, of, self.address, 0x49, &[]);
                self.said(now, 6);
                self.phase = Phase::AwaitStatus { of, slot: true };
                return;
            }
        }
        self.pass_token(params, air, now, 0);
    }

    fn send_request(&mut self, params: &Params, air: &mut Air, now: u64, has_asked: bool, request: &Request) {
        let from = air.len();
        self.initiator.request(air, self.address, request);
        self.said(now, air.len() - from);
        self.phase = match request.service {
            Service::Sdn => Phase::Use { has_asked, ready: self.end + params.tid2 },
            Service::Sda | Service::Srd => Phase::AwaitData { has_asked, ready: None, slot: true },
        };
    }

    fn pass_token(&mut self, params: &Params, air: &mut Air, now: u64, tries: u8) {
        let ns = self.las.next(self.address);
        air.extend_from_slice(&[0xdc, ns, self.address]);
        self.said(now, 3);
        if ns == self.address {
            self.rotation.received(self.end);
            self.phase = Phase::Use { has_asked: false, ready: self.end + params.tid1 };
        } else {
            self.phase = Phase::Checking { tries: tries + 1 };
        }
    }
}

// ---- the medium

struct Entry {
    begin: u64,
    end: u64,
    /// None for noise.
    sent: Option<Record>,
}

struct Record {
    tap: usize,
    octets: Piece,
    /// The taps that have heard it whole, and those to which it never comes.
    whole: u128,
    unheard: u128,
    /// Each tap at which it is damaged, with the place, or none for all.
    hits: Vec<(usize, Option<u8>)>,
}

impl Record {
    fn is_unheard(&self, tap: usize) -> bool {
        self.unheard >> tap & 1 != 0
    }
}

impl Entry {
    fn overlaps(&self, other: &Entry) -> bool {
        self.begin < other.end && other.begin < self.end
    }

    fn reaches(&self, tap: usize) -> bool {
        self.sent.as_ref().is_none_or(|record| record.tap != tap && !record.is_unheard(tap))
    }

    fn is_by(&self, speaker: usize) -> bool {
        self.sent.as_ref().is_some_and(|record| record.tap == speaker)
    }

    /// Its place in an instant: noise first, then by tap.
    fn rank(&self) -> usize {
        self.sent.as_ref().map_or(0, |record| record.tap + 1)
    }

    /// Whether all of it was sent, and none of it is damaged at a tap.
    fn is_undamaged(&self, tap: usize) -> bool {
        self.sent.as_ref().is_some_and(|record| {
            self.end - self.begin == 11 * record.octets.len as u64
                && record.hits.iter().all(|(at, _)| *at != tap)
        })
    }
}

struct Tap {
    station: Station,
    is_running: bool,
    /// Since when it runs, and whether something was reaching it then.
    since: u64,
    is_amid: bool,
    marks: Vec<Mark>,
}

/// What a pass brings to a tap: a Begin, and an End of the burst that an entry ends.
struct News {
    begins: bool,
    ends: Option<usize>,
}

impl Tap {
    /// What a pass from a moment to another brings to this tap, the one at `place`.
    fn news(&self, recent: &[Entry], place: usize, from: u64, to: u64) -> News {
        let mut news = News { begins: false, ends: None };
        let (mut is_amid, mut goes_on) = (false, false);
        for (number, entry) in recent.iter().enumerate() {
            if entry.end <= self.since || !entry.reaches(place) {
                continue;
            }
            let begin = entry.begin.max(self.since);
            news.begins |= begin == from;
            is_amid |= begin < from && from < entry.end;
            if entry.end == to {
                news.ends = Some(number);
            }
            goes_on |= begin < to && to < entry.end;
        }
        news.begins &= !is_amid;
        news.ends = news.ends.filter(|_| !goes_on);
        news
    }

    /// Whether this tap, the one at `place`, has heard an entry from its beginning, and nothing else meanwhile.
    fn hears_alone(&self, recent: &[Entry], number: usize, place: usize) -> bool {
        let entry = &recent[number];
        if entry.begin < self.since || entry.begin == self.since && self.is_amid {
            return false;
        }
        recent.iter().enumerate().all(|(other, beside)| {
            other == number || !beside.overlaps(entry) || !(beside.reaches(place) || beside.is_by(place))
        })
    }
}

// ---- the world

struct World {
    params: Params,
    now: u64,
    taps: Vec<Tap>,
    trace: Vec<Entry>,
    /// How many entries had ended before all others began.
    over: usize,
    air: Air,
}

impl World {
    fn new(params: Params, specs: &[TapSpec]) -> Result<World, Fault> {
        let refused = |words: &str| Err(Fault::Bus(format!("world fault {words}")));
        if specs.is_empty() {
            return refused("1 NoTaps");
        }
        if specs.len() > TAP_LIMIT {
            return refused("2 TooManyTaps");
        }
        let highest = |spec: &TapSpec| if spec.master { params.hsa } else { 126 };
        if let Some(tap) = specs.iter().position(|spec| spec.address > highest(spec)) {
            return refused(&format!("3 BadAddress {tap}"));
        }
        let tap = |spec| Tap {
            station: Station::new(spec),
            is_running: false,
            since: 0,
            is_amid: false,
            marks: Vec::with_capacity(MARK_LIMIT),
        };
        Ok(World {
            params,
            now: 0,
            taps: specs.iter().map(tap).collect(),
            trace: Vec::new(),
            over: 0,
            air: Vec::new(),
        })
    }

    /// Does an event. Where a turn spoke, the piece of the air.
    fn apply(&mut self, event: &Event) -> Result<Option<Piece>, Refusal> {
        match event {
            Event::Turn(tap) => return self.turn(*tap),
            Event::Pass(bits) => self.pass(*bits)?,
            Event::Damage { tap, speaker, place } => self.damage(*tap, *speaker, *place)?,
            Event::Start(tap) => self.start(*tap)?,
            Event::Stop(tap) => self.stop(*tap)?,
            Event::Queue { tap, request } => self.queue(*tap, request)?,
            Event::Noise(bits) => self.noise(*bits)?,
            Event::Unheard { tap, speaker } => self.lose(*tap, *speaker)?,
        }
        Ok(None)
    }

    fn recent(&self) -> &[Entry] {
        &self.trace[self.over..]
    }

    /// The next end in the air.
    fn next_end(&self) -> Option<u64> {
        self.recent().iter().map(|entry| entry.end).filter(|end| *end > self.now).min()
    }

    /// The next moment at which something changes on the medium: an end, or the first bit time of a telegram.
    fn next_change(&self) -> Option<u64> {
        let is_new = self.recent().iter().any(|entry| entry.begin == self.now);
        self.next_end().into_iter().chain(is_new.then_some(self.now + 1)).min()
    }

    fn due(&self, tap: usize) -> Option<u64> {
        let tap = &self.taps[tap];
        if !tap.is_running {
            return None;
        }
        tap.station.due(&self.params, &tap.marks)
    }

    fn running(&mut self, tap: usize) -> Result<&mut Tap, Refusal> {
        let tap = self.taps.get_mut(tap).ok_or(Refusal::NoSuchTap)?;
        if tap.is_running { Ok(tap) } else { Err(Refusal::NotRunning) }
    }

    fn turn(&mut self, number: usize) -> Result<Option<Piece>, Refusal> {
        self.running(number)?;
        if self.trace.len() >= TRACE_LIMIT && self.would_speak(number) {
            return Err(Refusal::TraceFull);
        }
        let tap = &mut self.taps[number];
        let from = self.air.len();
        let has_spoken = tap.station.turn(&self.params, &tap.marks, &mut self.air, self.now);
        tap.marks.clear();
        if !has_spoken {
            return Ok(None);
        }
        let octets = Piece { from, len: self.air.len() - from };
        let record = Record { tap: number, octets, whole: 0, unheard: 0, hits: Vec::new() };
        self.put(Entry { begin: self.now, end: self.now + 11 * octets.len as u64, sent: Some(record) });
        Ok(Some(octets))
    }

    /// The station at a tap as it is after its turn, which it does not take, and whether it speaks in it.
    fn after_turn(&mut self, tap: usize) -> (Station, bool) {
        let tap = &self.taps[tap];
        let mut station = tap.station.clone();
        let octets = self.air.len();
        let speaks = station.turn(&self.params, &tap.marks, &mut self.air, self.now);
        self.air.truncate(octets);
        (station, speaks)
    }

    fn would_speak(&mut self, tap: usize) -> bool {
        self.after_turn(tap).1
    }

    /// Puts an entry into the trace: by begin, and in an instant by rank.
    fn put(&mut self, entry: Entry) {
        let goes_before = |other: &Entry| (entry.begin, entry.rank()) < (other.begin, other.rank());
        let behind = self.trace.iter().rev().take_while(|other| goes_before(other)).count();
        self.trace.insert(self.trace.len() - behind, entry);
    }

    fn pass(&mut self, bits: u64) -> Result<(), Refusal> {
        if bits == 0 {
            return Err(Refusal::ZeroTime);
        }
        if let Some(end) = self.next_end()
            && end - self.now < bits
        {
            return Err(Refusal::TooFar(end));
        }
        let to = self.now.checked_add(bits).filter(|to| *to <= CLOCK_LIMIT).ok_or(Refusal::ClockFull)?;
        if self.over < self.trace.len() {
            self.check_inboxes(to)?;
            self.tell(to);
        }
        self.now = to;
        if self.next_end().is_none() {
            self.over = self.trace.len();
        }
        Ok(())
    }

    /// Whether each tap has room for its marks.
    fn check_inboxes(&self, to: u64) -> Result<(), Refusal> {
        for (place, tap) in self.taps.iter().enumerate() {
            if tap.is_running && tap.marks.len() + 2 > MARK_LIMIT {
                let news = tap.news(self.recent(), place, self.now, to);
                if tap.marks.len() + usize::from(news.begins) + usize::from(news.ends.is_some()) > MARK_LIMIT
                {
                    return Err(Refusal::InboxFull(place));
                }
            }
        }
        Ok(())
    }

    /// Tells each tap what begins and ends, and each telegram that ends which taps have heard it whole.
    fn tell(&mut self, to: u64) {
        let recent = &mut self.trace[self.over..];
        // The last telegram that was read, and by which number.
        let mut read = (usize::MAX, None);
        for (place, tap) in self.taps.iter_mut().enumerate() {
            if !tap.is_running {
                continue;
            }
            let news = tap.news(recent, place, self.now, to);
            if news.begins {
                tap.marks.push(Mark { at: self.now, seen: to, what: Heard::Begin });
            }
            let Some(number) = news.ends else {
                continue;
            };
            let is_whole = recent[number].is_undamaged(place) && tap.hears_alone(recent, number, place);
            let mut telegram = None;
            if let Some(record) = &mut recent[number].sent
                && is_whole
            {
                record.whole |= 1 << place;
                if read.0 != number {
                    read = (number, parse(&self.air, record.octets));
                }
                telegram = read.1;
            }
            tap.marks.push(Mark { at: to, seen: to, what: Heard::End(telegram) });
        }
    }

    /// The first telegram of a speaker that is in the air.
    fn in_air_by(&mut self, speaker: usize) -> Option<&mut Entry> {
        let now = self.now;
        self.trace[self.over..].iter_mut().find(|entry| entry.is_by(speaker) && entry.end > now)
    }

    fn check_taps(&self, tap: usize, speaker: usize) -> Result<(), Refusal> {
        if tap.max(speaker) < self.taps.len() { Ok(()) } else { Err(Refusal::NoSuchTap) }
    }

    fn damage(&mut self, tap: usize, speaker: usize, place: Option<u8>) -> Result<(), Refusal> {
        self.check_taps(tap, speaker)?;
        match self.in_air_by(speaker).and_then(|entry| entry.sent.as_mut()) {
            Some(record)
                if tap != speaker && place.is_none_or(|place| usize::from(place) < record.octets.len) =>
            {
                record.hits.push((tap, place));
                Ok(())
            }
            _ => Err(Refusal::NothingInAir),
        }
    }

    fn lose(&mut self, tap: usize, speaker: usize) -> Result<(), Refusal> {
        self.check_taps(tap, speaker)?;
        let now = self.now;
        let begun =
            self.trace[self.over..].iter_mut().find(|entry| entry.is_by(speaker) && entry.begin == now);
        match begun.and_then(|entry| entry.sent.as_mut()) {
            Some(record) if tap != speaker => {
                record.unheard |= 1 << tap;
                Ok(())
            }
            _ => Err(Refusal::NothingInAir),
        }
    }

    fn noise(&mut self, bits: u32) -> Result<(), Refusal> {
        if bits == 0 {
            return Err(Refusal::ZeroTime);
        }
        let (now, until) = (self.now, self.now + u64::from(bits));
        let recent = &mut self.trace[self.over..];
        if let Some(noise) = recent.iter_mut().find(|entry| entry.sent.is_none() && entry.end > now) {
            noise.end = noise.end.max(until);
            return Ok(());
        }
        if self.trace.len() >= TRACE_LIMIT {
            return Err(Refusal::TraceFull);
        }
        self.put(Entry { begin: now, end: until, sent: None });
        Ok(())
    }

    fn start(&mut self, number: usize) -> Result<(), Refusal> {
        let now = self.now;
        let is_running = self.taps.get(number).ok_or(Refusal::NoSuchTap)?.is_running;
        if is_running || self.in_air_by(number).is_some() {
            return Err(Refusal::Running);
        }
        let is_amid = self.recent().iter().any(|entry| entry.end > now && entry.reaches(number));
        let tap = &mut self.taps[number];
        (tap.is_running, tap.since, tap.is_amid) = (true, now, is_amid);
        tap.marks.clear();
        tap.station.start(now);
        Ok(())
    }

    fn stop(&mut self, number: usize) -> Result<(), Refusal> {
        let now = self.now;
        let tap = self.running(number)?;
        tap.is_running = false;
        tap.marks.clear();
        tap.station.stop();
        for entry in &mut self.trace[self.over..] {
            if entry.is_by(number) && entry.end > now {
                entry.end = entry.end.min(entry.begin + 11 * ((now - entry.begin) / 11 + 1));
            }
        }
        Ok(())
    }

    fn queue(&mut self, tap: usize, request: &Request) -> Result<(), Refusal> {
        let station = &mut self.running(tap)?.station;
        if !station.is_master {
            return Err(Refusal::NotRunning);
        }
        let list = if request.high { &mut station.high } else { &mut station.low };
        if list.len() >= QUEUE_LIMIT {
            return Err(Refusal::QueueFull);
        }
        list.push_back(request.clone());
        Ok(())
    }
}

/// The first of two moments.
fn sooner(one: Option<u64>, other: Option<u64>) -> Option<u64> {
    match (one, other) {
        (Some(one), Some(other)) => Some(one.min(other)),
        _ => one.or(other),
    }
}

// ---- the audit

/// The first premise that broke, with the clock, and the place of the first illegal record.
struct Finding {
    premise: Option<(u8, u64)>,
    illegal: Option<usize>,
}

/// Follows a run to the first premise that breaks.
struct Watch {
    /// Since when the bus has been silent.
    quiet: u64,
    /// The tap that was the last to wait out its time-out, and when.
    waited: Option<(usize, u64)>,
    broken: Option<(u8, u64)>,
}

fn audit(list: &EventList) -> Result<Result<Finding, Refusal>, Fault> {
    let mut world = World::new(list.params()?, &list.taps)?;
    let mut watch = Watch::new();
    for event in &list.events {
        if let Err(refusal) = watch.follow(&mut world, event) {
            return Ok(Err(refusal));
        }
    }
    let illegal = first_illegal(&world);
    Ok(Ok(Finding { premise: watch.broken, illegal }))
}

impl Watch {
    fn new() -> Watch {
        Watch { quiet: 0, waited: None, broken: None }
    }

    /// Does an event.
    fn follow(&mut self, world: &mut World, event: &Event) -> Result<(), Refusal> {
        if self.broken.is_some() {
            return world.apply(event).map(drop);
        }
        let (mut is_late, mut is_busy) = (false, false);
        if let Event::Pass(bits) = event {
            is_late = is_any_late(world, *bits);
            is_busy = world.next_end().is_some();
        }
        world.apply(event)?;
        if is_busy {
            self.quiet = world.now;
        }
        let has_met = self.has_met(world);
        let premise = if matches!(event, Event::Start(_)) && has_namesakes(&world.taps) {
            1
        } else if matches!(event, Event::Unheard { .. }) {
            2
        } else if is_late {
            3
        } else if has_met {
            4
        } else {
            return Ok(());
        };
        self.broken = Some((premise, world.now));
        Ok(())
    }

    /// Whether two taps have waited out their time-outs at one clock.
    fn has_met(&mut self, world: &World) -> bool {
        let now = world.now;
        let silent = now - self.quiet;
        let has_waited = |tap: &Tap| {
            let timeout = world.params.tto(tap.station.address);
            tap.is_running && tap.station.is_master && timeout <= silent && timeout <= now - tap.since
        };
        if silent < world.params.tto(0) {
            return false;
        }
        let mut waiting = world.taps.iter().enumerate().filter(|(_, tap)| has_waited(tap));
        let Some((first, _)) = waiting.next() else {
            return false;
        };
        let met = waiting.next().is_some() || self.waited.is_some_and(|(tap, at)| tap != first && at == now);
        self.waited = Some((first, now));
        met
    }
}

/// Whether a turn will be due for longer than the lag after some time.
fn is_any_late(world: &World, bits: u64) -> bool {
    let to = world.now.saturating_add(bits);
    (0..world.taps.len()).any(|tap| world.due(tap).is_some_and(|due| to > due + world.params.lag))
}

fn has_namesakes(taps: &[Tap]) -> bool {
    let mut addresses = 0;
    taps.iter().filter(|tap| tap.is_running).any(|tap| {
        let bit = only(tap.station.address);
        let is_there = addresses & bit != 0;
        addresses |= bit;
        is_there
    })
}

/// What the judge of a trace keeps of the last initiator record.
struct Last<'a> {
    entry: &'a Entry,
    record: &'a Record,
    telegram: Telegram,
    /// The latest end among all that began by the end of its slot.
    end: u64,
}

/// The place of the first initiator record that is not legal.
fn first_illegal(world: &World) -> Option<usize> {
    let mut last: Option<Last<'_>> = None;
    // The latest ends: of all entries, and of those that began before the newest.
    let (mut end, mut end_before, mut newest) = (0, 0, 0);
    for (place, entry) in world.trace.iter().enumerate() {
        if entry.begin > newest {
            (newest, end_before) = (entry.begin, end);
        }
        end = end.max(entry.end);
        if let Some(last) = &mut last
            && entry.begin < last.entry.end + world.params.tsl
        {
            last.end = last.end.max(entry.end);
        }
        let Some((record, telegram)) = initiator(&world.air, entry) else {
            continue;
        };
        if !is_legal(world, last.as_ref(), entry, record, telegram, end_before) {
            return Some(place);
        }
        last = Some(Last { entry, record, telegram, end });
    }
    None
}

/// A record that says a token or a request.
fn initiator<'a>(air: &Air, entry: &'a Entry) -> Option<(&'a Record, Telegram)> {
    let record = entry.sent.as_ref()?;
    let telegram = parse(air, record.octets)?;
    match telegram {
        Telegram::Token { .. } => Some((record, telegram)),
        Telegram::Framed(frame) if frame.is_request() => Some((record, telegram)),
        _ => None,
    }
}

fn is_legal(
    world: &World,
    last: Option<&Last<'_>>,
    entry: &Entry,
    record: &Record,
    telegram: Telegram,
    end_before: u64,
) -> bool {
    let own = world.taps[record.tap].station.address;
    let is_to_itself = matches!(telegram, Telegram::Token { da, sa } if da == own && sa == own);
    let timeout = world.params.tto(own);
    let claims = is_to_itself && (end_before == 0 || end_before + timeout <= entry.begin);
    let Some(last) = last else {
        return claims;
    };
    if last.entry.end > entry.begin {
        return false;
    }
    let slot = last.entry.end + world.params.tsl;
    match last.telegram {
        _ if claims => true,
        Telegram::Token { da, sa } if da != sa => {
            if last.record.tap == record.tap {
                slot <= entry.begin && last.end <= last.entry.end
            } else {
                da == own && last.record.whole >> record.tap & 1 != 0 && entry.begin < slot
            }
        }
        _ => last.record.tap == record.tap,
    }
}

// ---- what is printed

fn play(list: &EventList) -> Result<String, Fault> {
    let mut world = World::new(list.params()?, &list.taps)?;
    let mut text = String::new();
    let mut refused = vec![false; list.events.len()];
    for (place, event) in list.events.iter().enumerate() {
        let _ = write!(text, "{place} {event}: ");
        match world.apply(event) {
            Ok(spoke) => {
                let _ = write!(text, "now {}", world.now);
                if let Some(piece) = spoke {
                    let _ = write!(text, " spoke {}", Hex(piece.of(&world.air)));
                }
                text.push('\n');
            }
            Err(refusal) => {
                refused[place] = true;
                let _ = writeln!(text, "fault {refusal}");
            }
        }
    }
    push_trace(&mut text, &world);
    for (place, tap) in world.taps.iter().enumerate() {
        let _ = write!(text, "tap {place}: {}, due ", tap.station.phase.name());
        let _ = match world.due(place) {
            Some(due) => writeln!(text, "{due}"),
            None => writeln!(text, "none"),
        };
    }
    push_finding(&mut text, &accepted(list, &refused))?;
    Ok(text)
}

/// The list without its refused events.
fn accepted(list: &EventList, refused: &[bool]) -> EventList {
    let events = list.events.iter().zip(refused).filter(|(_, refused)| !**refused);
    EventList {
        bus: list.bus,
        taps: list.taps.clone(),
        events: events.map(|(event, _)| event.copy()).collect(),
    }
}

fn traces(list: &EventList, times: u64) -> Result<String, Fault> {
    let mut text = String::new();
    for time in 0..times {
        let mut world = World::new(list.params()?, &list.taps)?;
        for event in &list.events {
            if world.apply(event).is_err() {
                break;
            }
        }
        if time + 1 == times {
            push_trace(&mut text, &world);
        }
    }
    Ok(text)
}

fn audits(list: &EventList, times: u64) -> Result<String, Fault> {
    let mut text = String::new();
    for _ in 0..times {
        text.clear();
        push_finding(&mut text, list)?;
    }
    Ok(text)
}

fn push_finding(text: &mut String, list: &EventList) -> Result<(), Fault> {
    match audit(list)? {
        Ok(found) => push_found(text, &found),
        Err(_) => text.push_str("no audit\n"),
    }
    Ok(())
}

fn push_found(text: &mut String, found: &Finding) {
    let _ = match found.premise {
        Some((number, clock)) => writeln!(text, "premise P{number} broken at {clock}"),
        None => writeln!(text, "premises kept"),
    };
    let _ = match found.illegal {
        Some(place) => writeln!(text, "record {place} illegal"),
        None => writeln!(text, "trace legal"),
    };
}

fn push_trace(text: &mut String, world: &World) {
    push_entries(text, world, world.trace.len());
}

/// The lines of the first entries.
fn push_entries(text: &mut String, world: &World, count: usize) {
    for entry in &world.trace[..count] {
        let _ = write!(text, "{} {} ", entry.begin, entry.end);
        let Some(record) = &entry.sent else {
            text.push_str("~ noise\n");
            continue;
        };
        let _ = write!(text, "tap {} {} ", record.tap, Hex(record.octets.of(&world.air)));
        for tap in 0..world.taps.len() {
            text.push(letter(record, tap, entry.end > world.now));
        }
        text.push('\n');
    }
}

/// How a telegram reached a tap.
fn letter(record: &Record, tap: usize, is_in_air: bool) -> char {
    match tap {
        _ if record.tap == tap => '-',
        _ if record.is_unheard(tap) => 'u',
        _ if is_in_air => '.',
        _ if record.whole >> tap & 1 != 0 => 'w',
        _ => 'd',
    }
}

struct Hex<'a>(&'a [u8]);

impl Display for Hex<'_> {
    fn fmt(&self, f: &mut fmt::Formatter<'_>) -> fmt::Result {
        const DIGITS: &[u8; 16] = b"0123456789abcdef";
        let digits = |octet: &u8| [DIGITS[usize::from(octet >> 4)], DIGITS[usize::from(octet & 15)]];
        for part in self.0.chunks(64) {
            let mut text = [0; 128];
            for (place, octet) in text.chunks_exact_mut(2).zip(part) {
                place.copy_from_slice(&digits(octet));
            }
            f.write_str(std::str::from_utf8(&text[..2 * part.len()]).map_err(|_| fmt::Error)?)?;
        }
        Ok(())
    }
}

impl Display for Event {
    fn fmt(&self, f: &mut fmt::Formatter<'_>) -> fmt::Result {
        match self {
            Event::Turn(tap) => write!(f, "Turn {tap}"),
            Event::Pass(bits) => write!(f, "Pass {bits}"),
            Event::Damage { tap, speaker, place: None } => {
                write!(f, "Damage tap {tap} speaker {speaker} all")
            }
            Event::Damage { tap, speaker, place: Some(place) } => {
                write!(f, "Damage tap {tap} speaker {speaker} place {place}")
            }
            Event::Start(tap) => write!(f, "Start {tap}"),
            Event::Stop(tap) => write!(f, "Stop {tap}"),
            Event::Noise(bits) => write!(f, "Noise {bits}"),
            Event::Unheard { tap, speaker } => write!(f, "Unheard tap {tap} speaker {speaker}"),
            Event::Queue { tap, request } => {
                let (service, da) = (request.service.name(), request.da);
                let priority = if request.high { "high" } else { "low" };
                write!(f, "Queue tap {tap} {service} to {da} {priority} ")?;
                if request.unit.is_empty() { write!(f, "-") } else { write!(f, "{}", Hex(&request.unit)) }
            }
        }
    }
}

impl Event {
    fn copy(&self) -> Event {
        match self {
            Event::Turn(tap) => Event::Turn(*tap),
            Event::Pass(bits) => Event::Pass(*bits),
            Event::Damage { tap, speaker, place } => {
                Event::Damage { tap: *tap, speaker: *speaker, place: *place }
            }
            Event::Start(tap) => Event::Start(*tap),
            Event::Stop(tap) => Event::Stop(*tap),
            Event::Queue { tap, request } => Event::Queue { tap: *tap, request: request.clone() },
            Event::Noise(bits) => Event::Noise(*bits),
            Event::Unheard { tap, speaker } => Event::Unheard { tap: *tap, speaker: *speaker },
        }
    }
}

// ---- reading a list

struct EventList {
    bus: [(&'static str, u64); 10],
    taps: Vec<TapSpec>,
    events: Vec<Event>,
}

impl EventList {
    fn params(&self) -> Result<Params, Fault> {
        Params::new(&self.bus)
    }
}

/// JSON as far as event lists need it: numbers are natural ones.
enum Json {
    Null,
    Bool(bool),
    Number(u64),
    Text(String),
    List(Vec<Json>),
    Map(Vec<(String, Json)>),
}

struct Reader<'a> {
    text: &'a [u8],
    at: usize,
}

impl Reader<'_> {
    fn peek(&mut self) -> Option<u8> {
        while self.text.get(self.at).is_some_and(u8::is_ascii_whitespace) {
            self.at += 1;
        }
        self.text.get(self.at).copied()
    }

    fn take(&mut self, byte: u8) -> Option<()> {
        (self.peek()? == byte).then(|| self.at += 1)
    }

    fn word(&mut self, word: &str, value: Json) -> Option<Json> {
        let is_there = self.text[self.at..].starts_with(word.as_bytes());
        self.at += word.len();
        is_there.then_some(value)
    }

    fn value(&mut self) -> Option<Json> {
        match self.peek()? {
            b'n' => self.word("null", Json::Null),
            b't' => self.word("true", Json::Bool(true)),
            b'f' => self.word("false", Json::Bool(false)),
            b'"' => self.string().map(Json::Text),
            b'[' => self.items(b'[', b']', Reader::value).map(Json::List),
            b'{' => self.items(b'{', b'}', Reader::entry).map(Json::Map),
            _ => self.number().map(Json::Number),
        }
    }

    fn entry(&mut self) -> Option<(String, Json)> {
        self.peek()?;
        let key = self.string()?;
        self.take(b':')?;
        Some((key, self.value()?))
    }

    fn items<T>(&mut self, open: u8, close: u8, item: fn(&mut Self) -> Option<T>) -> Option<Vec<T>> {
        self.take(open)?;
        let mut items = Vec::new();
        if self.take(close).is_some() {
            return Some(items);
        }
        loop {
            items.push(item(self)?);
            if self.take(b',').is_none() {
                self.take(close)?;
                return Some(items);
            }
        }
    }

    /// A string without escapes: no word of an event list has any.
    fn string(&mut self) -> Option<String> {
        self.take(b'"')?;
        let len = self.text[self.at..].iter().position(|byte| *byte == b'"')?;
        let text = String::from_utf8(self.text[self.at..self.at + len].to_vec()).ok()?;
        self.at += len + 1;
        Some(text)
    }

    fn number(&mut self) -> Option<u64> {
        let len = self.text[self.at..].iter().take_while(|byte| byte.is_ascii_digit()).count();
        let digits = std::str::from_utf8(&self.text[self.at..self.at + len]).ok()?;
        self.at += len;
        digits.parse().ok()
    }
}

impl Json {
    fn number<T: TryFrom<u64>>(&self) -> Option<T> {
        match self {
            Json::Number(number) => T::try_from(*number).ok(),
            _ => None,
        }
    }

    fn text(&self) -> Option<&str> {
        match self {
            Json::Text(text) => Some(text),
            _ => None,
        }
    }

    fn list(&self) -> Option<&[Json]> {
        match self {
            Json::List(items) => Some(items),
            _ => None,
        }
    }

    fn bool(&self) -> Option<bool> {
        match self {
            Json::Bool(is_so) => Some(*is_so),
            _ => None,
        }
    }

    fn get(&self, key: &str) -> Option<&Json> {
        match self {
            Json::Map(entries) => entries.iter().find(|(name, _)| name == key).map(|(_, value)| value),
            _ => None,
        }
    }

    /// The octets that hex digits spell.
    fn data(&self) -> Option<Vec<u8>> {
        let text = self.text()?;
        let octet = |place| u8::from_str_radix(text.get(place..place + 2)?, 16).ok();
        let data: Vec<u8> = (0..text.len()).step_by(2).map(octet).collect::<Option<_>>()?;
        (data.len() <= 246).then_some(data)
    }
}

fn read_list() -> Result<EventList, Fault> {
    let mut text = Vec::new();
    if io::stdin().lock().read_to_end(&mut text).is_err() {
        return Err(Fault::List("read fault".into()));
    }
    let list = Reader { text: &text, at: 0 }.value();
    list.and_then(|list| list_of(&list)).ok_or(Fault::List("no event list".into()))
}

fn list_of(list: &Json) -> Option<EventList> {
    let mut bus = USUAL;
    if let Some(written) = list.get("bus") {
        for (name, value) in &mut bus {
            if let Some(written) = written.get(name) {
                *value = u64::from(written.number::<u32>()?);
            }
        }
    }
    let taps = list.get("taps")?.list()?.iter().map(tap_of);
    let events = list.get("events")?.list()?.iter().map(event_of);
    let list = EventList { bus, taps: taps.collect::<Option<_>>()?, events: events.collect::<Option<_>>()? };
    // There is no cable delay.
    (bus[9].1 == 0).then_some(list)
}

fn tap_of(tap: &Json) -> Option<TapSpec> {
    let master = match tap.get("kind")?.text()? {
        "master" => true,
        "passive" => false,
        _ => return None,
    };
    let reply = tap.get("reply").map_or(Some(Vec::new()), Json::data)?;
    Some(TapSpec { master, address: tap.get("address")?.number()?, reply })
}

fn event_of(event: &Json) -> Option<Event> {
    let Json::Map(entries) = event else {
        return None;
    };
    let [(name, value)] = &entries[..] else {
        return None;
    };
    let tap = |key| value.get(key)?.number();
    Some(match name.as_str() {
        "Turn" => Event::Turn(value.number()?),
        "Pass" => Event::Pass(value.number()?),
        "Start" => Event::Start(value.number()?),
        "Stop" => Event::Stop(value.number()?),
        "Noise" => Event::Noise(value.number()?),
        "Unheard" => Event::Unheard { tap: tap("tap")?, speaker: tap("speaker")? },
        "Damage" => {
            let place = match value.get("place") {
                None | Some(Json::Null) => None,
                Some(place) => Some(place.number()?),
            };
            Event::Damage { tap: tap("tap")?, speaker: tap("speaker")?, place }
        }
        "Queue" => Event::Queue { tap: tap("tap")?, request: request_of(value)? },
        _ => return None,
    })
}

fn request_of(value: &Json) -> Option<Request> {
    let service = match value.get("service")?.text()? {
        "sda" => Service::Sda,
        "sdn" => Service::Sdn,
        "srd" => Service::Srd,
        _ => return None,
    };
    let da = value.get("da")?.number()?;
    let unit = value.get("unit").map_or(Some(Vec::new()), Json::data)?;
    let is_sound = da < ALL || da == ALL && service == Service::Sdn;
    is_sound.then_some(Request { da, service, high: value.get("high")?.bool()?, unit })
}

// ---- a scenario

/// A scenario file as `scenarios.py` writes it: a line for each key of the top, with tables in braces.
struct Scenario {
    until: u64,
    bus: [(&'static str, u64); 10],
    taps: Vec<TapSpec>,
    /// In order of their moments.
    steps: VecDeque<(u64, Event)>,
}

/// Plays a scenario, each tap's turn as soon as it is due; its trace, or where it is watched what an audit finds.
fn run(mut scenario: Scenario, mut watch: Option<Watch>) -> Result<String, Fault> {
    let mut world = World::new(Params::new(&scenario.bus)?, &scenario.taps)?;
    let mut text = String::new();
    while instant(&mut scenario, &mut world, &mut watch)? {}
    match watch {
        Some(watch) => push_found(&mut text, &Finding { premise: watch.broken, illegal: first_illegal(&world) }),
        None => push_trace(&mut text, &world),
    }
    Ok(text)
}

/// Plays the instant that it is, and lets time pass to the next one; whether there is one.
fn instant(scenario: &mut Scenario, world: &mut World, watch: &mut Option<Watch>) -> Result<bool, Fault> {
    let now = world.now;
    while let Some((_, event)) = scenario.steps.pop_front_if(|(at, _)| *at <= now) {
        happens(world, watch, &event)?;
    }
    let mut next = scenario.until;
    for tap in 0..world.taps.len() {
        let mut due = world.due(tap);
        if due.is_some_and(|due| due <= now) {
            happens(world, watch, &Event::Turn(tap))?;
            due = world.due(tap);
        }
        next = due.filter(|due| *due > now).map_or(next, |due| due.min(next));
    }
    if now >= scenario.until {
        return Ok(false);
    }
    let step = scenario.steps.front().map(|(at, _)| *at);
    next = world.next_change().into_iter().chain(step).fold(next, u64::min);
    happens(world, watch, &Event::Pass(next - now))?;
    Ok(true)
}

/// Plays a scenario, and writes the lines of its trace as they settle: as soon as a block of entries is over.
fn stream(mut scenario: Scenario) -> Result<String, Fault> {
    let mut world = World::new(Params::new(&scenario.bus)?, &scenario.taps)?;
    let mut output = io::stdout().lock();
    let mut text = String::new();
    while instant(&mut scenario, &mut world, &mut None)? {
        if world.over >= BLOCK {
            push_entries(&mut text, &world, world.over);
            if output.write_all(text.as_bytes()).is_err() {
                return Err(Fault::List("write fault".into()));
            }
            text.clear();
            world.trace.drain(..world.over);
            world.over = 0;
        }
    }
    push_trace(&mut text, &world);
    Ok(text)
}

fn happens(world: &mut World, watch: &mut Option<Watch>, event: &Event) -> Result<(), Fault> {
    let done = match watch {
        Some(watch) => watch.follow(world, event),
        None => world.apply(event).map(drop),
    };
    done.map_err(|refusal| Fault::Bus(format!("refused: {refusal}")))
}

fn read_scenario() -> Result<Scenario, Fault> {
    let mut text = String::new();
    if io::stdin().lock().read_to_string(&mut text).is_err() {
        return Err(Fault::List("read fault".into()));
    }
    scenario_of(&text).ok_or(Fault::List("no scenario".into()))
}

/// Reads a scenario file whose lines are as `scenarios.py` writes them.
#[cfg(not(feature = "toml"))]
fn scenario_of(text: &str) -> Option<Scenario> {
    let mut scenario = Scenario { until: 0, bus: USUAL, taps: Vec::new(), steps: VecDeque::new() };
    for line in text.lines() {
        let (key, value) = line.split_once(" = ")?;
        match key {
            "until" => scenario.until = value.parse().ok()?,
            "bus" => {
                for (key, value) in pairs(tables(value).next()?) {
                    scenario.bus.iter_mut().find(|(name, _)| *name == key)?.1 = value.parse().ok()?;
                }
            }
            "tap" => scenario.taps = tables(value).map(tap_in).collect::<Option<_>>()?,
            "step" => scenario.steps = tables(value).map(step_in).collect::<Option<_>>()?,
            _ => {}
        }
    }
    Some(scenario)
}

/// What stands between the braces.
fn tables(value: &str) -> impl Iterator<Item = &str> {
    value.split('{').skip(1).filter_map(|table| Some(table.split_once('}')?.0.trim()))
}

/// The keys and values of a table, without the quotes of texts.
fn pairs(table: &str) -> impl Iterator<Item = (&str, &str)> {
    table.split(", ").filter_map(|pair| pair.split_once(" = ")).map(|(key, value)| (key, value.trim_matches('"')))
}

fn tap_in(table: &str) -> Option<TapSpec> {
    let mut tap = TapSpec { master: false, address: 0, reply: Vec::new() };
    for (key, value) in pairs(table) {
        match key {
            "kind" => tap.master = value == "master",
            "address" => tap.address = value.parse().ok()?,
            "reply" => tap.reply = octets_in(value)?,
            _ => {}
        }
    }
    Some(tap)
}

fn step_in(table: &str) -> Option<(u64, Event)> {
    let (mut at, mut kind, mut tap) = (0, "", 0);
    let mut request = Request { da: 0, service: Service::Sda, high: false, unit: Vec::new() };
    for (key, value) in pairs(table) {
        match key {
            "at" => at = value.parse().ok()?,
            "do" => kind = value,
            "tap" => tap = value.strip_prefix('t')?.parse().ok()?,
            "to" => request.da = value.parse().ok()?,
            "high" => request.high = value == "true",
            "unit" => request.unit = octets_in(value)?,
            "service" => {
                request.service = match value {
                    "sda" => Service::Sda,
                    "sdn" => Service::Sdn,
                    _ => Service::Srd,
                }
            }
            _ => return None,
        }
    }
    match kind {
        "start" => Some((at, Event::Start(tap))),
        "queue" => Some((at, Event::Queue { tap, request })),
        _ => None,
    }
}

/// The octets that hex digits spell.
fn octets_in(text: &str) -> Option<Vec<u8>> {
    let digit = |byte: u8| match byte {
        b'0'..=b'9' => Some(byte - b'0'),
        b'a'..=b'f' => Some(byte - b'a' + 10),
        _ => None,
    };
    text.as_bytes().chunks_exact(2).map(|pair| Some(digit(pair[0])? << 4 | digit(pair[1])?)).collect()
}

// ---- making a list

/// By when a ring of two masters has formed.
const RING_FORMED: u64 = 5_000;

/// A kind of list: its bus, its taps, and what happens on it beside turns and passes.
struct Kind {
    bus: Vec<(&'static str, u64)>,
    taps: Vec<TapSpec>,
    /// Each so many bit times, once a ring has formed, noise of so many bit times.
    noise: Option<(u64, u32)>,
    /// Each so many bit times, requests with so much data wait at each master.
    requests: Option<(u64, usize)>,
    /// Whether taps take turns only where they speak.
    is_lazy: bool,
}

fn master(address: u8, reply: usize) -> TapSpec {
    TapSpec { master: true, address, reply: vec![0x5a; reply] }
}

/// - `token`: two masters that pass the token
/// - `lazy`: the same, where a tap reads its marks only as it speaks
/// - `three`: three masters that pass it
/// - `eight`: eight masters with requests and replies of full units
/// - `taps32`: eight masters and 24 passive stations
/// - `taps127`: eight masters and 119 passive stations
/// - `noise`: two masters, with noise each 500 bit times, after which no station ever waits out its time-out
/// - `recovery`: the same each 5,000 bit times, so that the ring forms anew each time
fn kind_of(name: &str) -> Option<Kind> {
    let two = Kind {
        bus: vec![("hsa", 2)],
        taps: vec![master(1, 0), master(2, 0)],
        noise: None,
        requests: None,
        is_lazy: false,
    };
    let eight = |reply| (1..=8).map(move |address| master(address, reply));
    let passive = |address| TapSpec { master: false, address, reply: Vec::new() };
    let many = vec![("hsa", 8), ("gap", 1), ("ttr", 50_000)];
    Some(match name {
        "token" => two,
        "lazy" => Kind { is_lazy: true, ..two },
        "three" => {
            Kind { bus: vec![("hsa", 3)], taps: (1..=3).map(|address| master(address, 0)).collect(), ..two }
        }
        "eight" => Kind { bus: many, taps: eight(246).collect(), requests: Some((25_000, 246)), ..two },
        "taps32" => Kind { bus: many, taps: eight(0).chain((9..=32).map(passive)).collect(), ..two },
        "taps127" => {
            Kind { bus: many, taps: eight(0).chain((9..=126).chain([0]).map(passive)).collect(), ..two }
        }
        "noise" => Kind { noise: Some((500, 20)), ..two },
        "recovery" => Kind { noise: Some((5_000, 20)), ..two },
        _ => return None,
    })
}

/// The events of a list, and the world in which they have happened.
struct Maker {
    world: World,
    events: Vec<Event>,
}

impl Maker {
    fn does(&mut self, event: Event) {
        if self.world.apply(&event).is_ok() {
            self.events.push(event);
        }
    }

    /// Requests wait at each master that has none: one of high priority, and one of low priority, to the next one.
    fn queue(&mut self, len: usize) {
        for tap in 0..self.world.taps.len() {
            let next = self.world.taps[(tap + 1) % self.world.taps.len()].station.address;
            let station = &self.world.taps[tap].station;
            let waits = [(station.high.len(), true, Service::Sda), (station.low.len(), false, Service::Srd)];
            for (waiting, high, service) in waits {
                if waiting == 0 {
                    let unit = (0..len).map(|place| place as u8).collect();
                    self.does(Event::Queue { tap, request: Request { da: next, service, high, unit } });
                }
            }
        }
    }

    /// Each tap takes its turn where it is due; the next moment at which one will be.
    fn turns(&mut self, is_lazy: bool) -> Option<u64> {
        let now = self.world.now;
        for tap in 0..self.world.taps.len() {
            let is_due = self.world.due(tap).is_some_and(|due| due <= now);
            if is_due && (!is_lazy || self.world.would_speak(tap)) {
                self.does(Event::Turn(tap));
            }
        }
        let taps = 0..self.world.taps.len();
        if !is_lazy {
            return taps.filter_map(|tap| self.world.due(tap)).min();
        }
        taps.filter_map(|tap| self.world.after_turn(tap).0.due(&self.world.params, &[])).min()
    }
}

/// An event list of a kind, for so many bit times: each tap takes its turn as soon as it is due, and time passes to
/// the next moment at which anything can change.
fn make(name: &str, bits: u64) -> Result<String, Fault> {
    let kind = kind_of(name).ok_or_else(|| Fault::List(format!("no kind: {name}")))?;
    let mut bus = USUAL;
    for (name, value) in &mut bus {
        *value = kind.bus.iter().find(|(key, _)| key == name).map_or(*value, |(_, value)| *value);
    }
    let mut maker = Maker { world: World::new(Params::new(&bus)?, &kind.taps)?, events: Vec::new() };
    for tap in 0..kind.taps.len() {
        maker.does(Event::Start(tap));
    }
    while maker.world.now < bits {
        let now = maker.world.now;
        let is_time = |every: u64| now >= RING_FORMED && now % every == 0;
        if let Some((every, len)) = kind.requests
            && is_time(every)
        {
            maker.queue(len);
        }
        if let Some((every, len)) = kind.noise
            && is_time(every)
        {
            maker.does(Event::Noise(len));
        }
        let due = maker.turns(kind.is_lazy);
        let steps = [kind.requests.map(|(every, _)| every), kind.noise.map(|(every, _)| every)];
        let step = steps.into_iter().flatten().map(|every| now - now % every + every);
        let change = if kind.is_lazy { maker.world.next_end() } else { maker.world.next_change() };
        let next = step.chain(due).chain(change).filter(|next| *next > now).min().unwrap_or(bits);
        maker.does(Event::Pass(next.min(bits) - now));
    }
    Ok(written(&bus, &kind.taps, &maker.events))
}

/// A list as `event_player` reads it.
fn written(bus: &[(&str, u64)], taps: &[TapSpec], events: &[Event]) -> String {
    let joined = |items: Vec<String>, by: &str| items.join(by);
    let bus = bus.iter().map(|(name, value)| format!("\"{name}\": {value}")).collect();
    let tap = |tap: &TapSpec| {
        let kind = if tap.master { "master" } else { "passive" };
        format!(
            "  {{\"kind\": \"{kind}\", \"address\": {}, \"reply\": \"{}\"}}",
            tap.address,
            Hex(&tap.reply)
        )
    };
    let taps = taps.iter().map(tap).collect();
    let events = events.iter().map(|event| format!("  {}", written_event(event))).collect();
    format!(
        "{{\n \"bus\": {{{}}},\n \"taps\": [\n{}\n ],\n \"events\": [\n{}\n ]\n}}\n",
        joined(bus, ", "),
        joined(taps, ",\n"),
        joined(events, ",\n")
    )
}

fn written_event(event: &Event) -> String {
    match event {
        Event::Turn(tap) => format!("{{\"Turn\": {tap}}}"),
        Event::Pass(bits) => format!("{{\"Pass\": {bits}}}"),
        Event::Start(tap) => format!("{{\"Start\": {tap}}}"),
        Event::Stop(tap) => format!("{{\"Stop\": {tap}}}"),
        Event::Noise(bits) => format!("{{\"Noise\": {bits}}}"),
        Event::Damage { tap, speaker, place } => {
            let place = place.map_or("null".into(), |place| place.to_string());
            format!("{{\"Damage\": {{\"tap\": {tap}, \"speaker\": {speaker}, \"place\": {place}}}}}")
        }
        Event::Unheard { tap, speaker } => {
            format!("{{\"Unheard\": {{\"tap\": {tap}, \"speaker\": {speaker}}}}}")
        }
        Event::Queue { tap, request } => format!(
            "{{\"Queue\": {{\"tap\": {tap}, \"da\": {}, \"service\": \"{}\", \"high\": {}, \"unit\": \"{}\"}}}}",
            request.da,
            request.service.name(),
            request.high,
            Hex(&request.unit)
        ),
    }
}
