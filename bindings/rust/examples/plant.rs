//! A plant on a simulated bus: a master polls slaves by SRD, and makes each request of the last reply. Each slave controls a tank.
//!
//!     cargo run --example plant [UNTIL]
//!
//! Tanks and controllers are those of `closed_loop.rs`, which has a wire of its own; here the bus is pbfdl's, with its audit. Every
//! `STEP` bit times the plant looks at what its slaves were told, and sets what they reply. It runs to a moment (bit times, 1000000
//! where none is given), and prints where the tanks are.

use std::env;
use std::error::Error;

use pbfdl::{Bus, Fault, Outcome, Params, Priority, Service, Tap};

const STEP: u64 = 200;
/// How many requests are kept of a slave: more than come in a step.
const ROOM: usize = 16;
const PARAMS: Params = Params { tsl: 100, tid1: 37, tid2: 60, tsdr: 11, lag: 0, ttr: 10_000, gap: 10, hsa: 2, retries: 1, ttd: 0 };
/// The master's tap, and its address. Behind it stands a tap for each slave.
const MASTER: usize = 0;
const MASTER_ADDRESS: u8 = 1;
/// Addresses of the slaves, 2 to 10 of them, and the levels that their tanks shall have, in thousandths.
const TARGETS: &[(u8, i64)] = &[(3, 300), (4, 400), (5, 500), (6, 600)];

/// A tank of 1,000,000 units. An open valve brings 40 a bit time; 1 in 50,000 of its content leaves it in a bit time.
#[derive(Default)]
struct Tank {
    content: u64,
    valve: u8,
    moment: u64,
}

impl Tank {
    fn advance(&mut self, now: u64) {
        let passed = now - self.moment;
        self.content = self.content + u64::from(self.valve) * passed * 2 / 5 - self.content * passed / 50_000;
        self.moment = now;
    }

    /// In thousandths.
    fn level(&self) -> u16 {
        (self.content / 1000) as u16
    }

    /// The tank up to now: what its slave was told opens its valve, and its level is what the slave replies.
    fn control(&mut self, bus: &mut Bus, tap: usize) -> Result<(), Fault> {
        self.advance(bus.now());
        for indication in bus.take_indications(tap)? {
            self.valve = indication.data[0];
        }
        bus.set_reply(tap, &self.level().to_be_bytes())
    }
}

/// What the master knows of a slave, and the valve that it wants: proportional to the error, and to its sum.
struct Controller {
    target: i64,
    level: i64,
    sum: i64,
    polls: u64,
}

impl Controller {
    /// In hundredths.
    fn valve(&self) -> u8 {
        ((32 * (self.target - self.level) + self.sum).clamp(0, 6400) / 64) as u8
    }

    fn learn(&mut self, level: i64) {
        self.level = level;
        self.polls += 1;
        self.sum = (self.sum + self.target - level).clamp(0, 6400);
    }
}

/// The master's polls: one request at a time, to each slave in turn.
struct Polls {
    controllers: Vec<Controller>,
    asked: usize,
}

impl Polls {
    fn new(bus: &mut Bus) -> Result<Polls, Fault> {
        let controllers = TARGETS.iter().map(|&(_, target)| Controller { target, level: 0, sum: 0, polls: 0 }).collect();
        let mut polls = Polls { controllers, asked: 0 };
        polls.ask(bus, 0)?;
        Ok(polls)
    }

    fn ask(&mut self, bus: &mut Bus, slave: usize) -> Result<(), Fault> {
        self.asked = slave;
        bus.queue(MASTER, TARGETS[slave].0, Service::Srd, Priority::Low, &[self.controllers[slave].valve()])
    }

    /// Takes in the outcome of the request, if it has one: an outcome of another slave is that of the request before it.
    fn look(&mut self, bus: &mut Bus) -> Result<(), Fault> {
        match bus.outcome(MASTER)? {
            Some(outcome) if outcome.station() == TARGETS[self.asked].0 => {
                if let Outcome::Data(_, data) = outcome {
                    let level = data.iter().fold(0, |level, octet| 256 * level + i64::from(*octet));
                    self.controllers[self.asked].learn(level);
                }
                self.ask(bus, (self.asked + 1) % TARGETS.len())
            }
            _ => Ok(()),
        }
    }
}

fn started() -> Result<Bus, Fault> {
    let slaves = TARGETS.iter().map(|&(address, _)| Tap::passive(address, &[]));
    let taps: Vec<Tap> = [Tap::master(MASTER_ADDRESS)].into_iter().chain(slaves).collect();
    let mut bus = Bus::new(&PARAMS, &taps)?;
    for tap in 0..bus.taps() {
        bus.start(tap)?;
        if tap != MASTER {
            bus.keep_indications(tap, ROOM)?;
        }
    }
    Ok(bus)
}

fn main() -> Result<(), Box<dyn Error>> {
    let until = env::args().nth(1).map_or(Ok(1_000_000), |word| word.parse())?;
    let mut bus = started()?;
    let mut polls = Polls::new(&mut bus)?;
    let mut tanks: Vec<Tank> = TARGETS.iter().map(|_| Tank::default()).collect();
    while bus.now() < until {
        bus.run(until.min(bus.now() + STEP))?;
        for (slave, tank) in tanks.iter_mut().enumerate() {
            tank.control(&mut bus, MASTER + 1 + slave)?;
        }
        polls.look(&mut bus)?;
    }
    for ((tank, known), (address, target)) in tanks.iter().zip(&polls.controllers).zip(TARGETS) {
        let (level, valve) = (tank.level(), tank.valve);
        let Controller { polls, .. } = known;
        println!("tank {address}: level {}.{} % of {} %, valve {valve} %, {polls} polls", level / 10, level % 10, target / 10);
    }
    println!("{} telegrams in {until} bit times\n{}", bus.trace().len(), bus.audit()?);
    Ok(())
}
