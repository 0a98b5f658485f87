//! A closed loop: a master polls slaves by SRD, and makes each request of the last reply. Each slave controls a tank.
//!
//!     cargo run --example closed_loop [UNTIL]
//!
//! A request carries the opening of the valve that fills the tank, a reply the level of the tank. The stations are pbfdl's; wire,
//! tanks and controller are this program's. It runs to a moment (bit times, 1000000 where none is given), and prints where the tanks
//! are.

use std::env;
use std::error::Error;

use pbfdl::{Fault, Outcome, Params, Phase, Priority, Service, Station};

const CHARACTER_BITS: u64 = 11;
const PARAMS: Params = Params { tsl: 100, tid1: 37, tid2: 60, tsdr: 11, lag: 0, ttr: 10_000, gap: 10, hsa: 2, retries: 1, ttd: 0 };
const MASTER: u8 = 1;
/// Addresses of the slaves, 1 to 10 of them, and the levels that their tanks shall have, in thousandths.
const TARGETS: &[(u8, i64)] = &[(3, 300), (4, 400), (5, 500), (6, 600)];

/// A station with what is behind it.
trait Node {
    fn station(&mut self) -> &mut Station;

    /// The node takes its turn: the octets that it sends, or none.
    fn turn(&mut self, now: u64) -> Result<Vec<u8>, Fault>;
}

/// A tank of 1,000,000 units. An open valve brings 40 a bit time; 1 in 50,000 of its content leaves it in a bit time.
#[derive(Default)]
struct Tank {
    content: u64,
    valve: u8,
    moment: u64,
}

impl Tank {
    fn advance(&mut self, now: u64) {
        let passed = now - self.moment;
        self.content = self.content + u64::from(self.valve) * passed * 2 / 5 - self.content * passed / 50_000;
        self.moment = now;
    }

    /// In thousandths.
    fn level(&self) -> u16 {
        (self.content / 1000) as u16
    }
}

/// A passive station with its tank.
struct Slave {
    station: Station,
    tank: Tank,
}

impl Slave {
    fn new(address: u8) -> Result<Slave, Fault> {
        let mut station = Station::passive(&PARAMS, address, &[])?;
        station.start(0)?;
        Ok(Slave { station, tank: Tank::default() })
    }
}

impl Node for Slave {
    fn station(&mut self) -> &mut Station {
        &mut self.station
    }

    fn turn(&mut self, now: u64) -> Result<Vec<u8>, Fault> {
        self.tank.advance(now);
        self.station.set_reply(&self.tank.level().to_be_bytes())?;
        let octets = self.station.turn(now)?;
        for indication in self.station.indications() {
            self.tank.valve = indication.data[0];
        }
        Ok(octets)
    }
}

/// What the master knows of a slave, and the valve that it wants: proportional to the error, and to its sum.
struct Controller {
    target: i64,
    level: i64,
    sum: i64,
    polls: u64,
}

impl Controller {
    /// In hundredths.
    fn valve(&self) -> u8 {
        ((32 * (self.target - self.level) + self.sum).clamp(0, 6400) / 64) as u8
    }

    fn learn(&mut self, level: i64) {
        self.level = level;
        self.polls += 1;
        self.sum = (self.sum + self.target - level).clamp(0, 6400);
    }
}

/// A master that polls the slaves in turn, one request at a time.
struct Master {
    station: Station,
    controllers: Vec<Controller>,
    asked: usize,
}

impl Master {
    fn new() -> Result<Master, Fault> {
        let mut station = Station::master(&PARAMS, MASTER, &[])?;
        station.start(0)?;
        let controllers = TARGETS.iter().map(|&(_, target)| Controller { target, level: 0, sum: 0, polls: 0 }).collect();
        let mut master = Master { station, controllers, asked: 0 };
        master.ask(0)?;
        Ok(master)
    }

    fn ask(&mut self, slave: usize) -> Result<(), Fault> {
        self.asked = slave;
        self.station.push(TARGETS[slave].0, Service::Srd, Priority::Low, &[self.controllers[slave].valve()])
    }

    /// The poll is over: the master learns what came of it, and asks the next slave.
    fn close(&mut self) -> Result<(), Fault> {
        if let Some(Outcome::Data(_, data)) = self.station.outcome() {
            let level = data.iter().fold(0, |level, octet| 256 * level + i64::from(*octet));
            self.controllers[self.asked].learn(level);
        }
        self.ask((self.asked + 1) % TARGETS.len())
    }
}

impl Node for Master {
    fn station(&mut self) -> &mut Station {
        &mut self.station
    }

    /// The poll is open while the master awaits data, retries included. If it loses the token then, the poll has no outcome.
    fn turn(&mut self, now: u64) -> Result<Vec<u8>, Fault> {
        let was_open = self.station.phase() == Phase::AwaitData;
        let octets = self.station.turn(now)?;
        match self.station.phase() {
            Phase::Idle if was_open => self.ask(self.asked)?,
            phase if was_open && phase != Phase::AwaitData => self.close()?,
            _ => {}
        }
        Ok(octets)
    }
}

/// The line between the nodes: one telegram at a time, heard by all others at once.
#[derive(Default)]
struct Wire {
    sender: usize,
    octets: Vec<u8>,
    end: Option<u64>,
    telegrams: u64,
}

impl Wire {
    fn next_moment(&self, nodes: &mut [&mut dyn Node]) -> Option<u64> {
        nodes.iter_mut().filter_map(|node| node.station().due()).chain(self.end).min()
    }

    fn step(&mut self, nodes: &mut [&mut dyn Node], now: u64) -> Result<(), Fault> {
        if self.end == Some(now) {
            for node in others(nodes, self.sender) {
                node.station().end(now, now, &self.octets)?;
            }
            self.end = None;
        }
        for place in 0..nodes.len() {
            if nodes[place].station().due().is_some_and(|due| due <= now) {
                let octets = nodes[place].turn(now)?;
                self.send(nodes, place, octets, now)?;
            }
        }
        Ok(())
    }

    fn send(&mut self, nodes: &mut [&mut dyn Node], sender: usize, octets: Vec<u8>, now: u64) -> Result<(), Fault> {
        if octets.is_empty() {
            return Ok(());
        }
        for node in others(nodes, sender) {
            node.station().begin(now, now)?;
        }
        self.end = Some(now + CHARACTER_BITS * octets.len() as u64);
        (self.sender, self.octets) = (sender, octets);
        self.telegrams += 1;
        Ok(())
    }
}

/// All nodes but one.
fn others<'a, 'b>(nodes: &'a mut [&'b mut dyn Node], one: usize) -> impl Iterator<Item = &'a mut &'b mut dyn Node> {
    nodes.iter_mut().enumerate().filter(move |(place, _)| *place != one).map(|(_, node)| node)
}

fn main() -> Result<(), Box<dyn Error>> {
    let until = env::args().nth(1).map_or(Ok(1_000_000), |word| word.parse())?;
    let mut master = Master::new()?;
    let mut slaves = TARGETS.iter().map(|&(address, _)| Slave::new(address)).collect::<Result<Vec<_>, _>>()?;
    let mut wire = Wire::default();
    let mut nodes: Vec<&mut dyn Node> = vec![&mut master];
    nodes.extend(slaves.iter_mut().map(|slave| slave as &mut dyn Node));
    while let Some(now) = wire.next_moment(&mut nodes).filter(|&now| now <= until) {
        wire.step(&mut nodes, now)?;
    }
    for ((slave, known), (address, target)) in slaves.iter().zip(&master.controllers).zip(TARGETS) {
        let (level, valve) = (slave.tank.level(), slave.tank.valve);
        let Controller { polls, .. } = known;
        println!("tank {address}: level {}.{} % of {} %, valve {valve} %, {polls} polls", level / 10, level % 10, target / 10);
    }
    println!("{} telegrams in {until} bit times", wire.telegrams);
    Ok(())
}
