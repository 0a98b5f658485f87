//! Plays a plan (tests/bindings) on a bus of the Rust crate, and prints its trace and its audit, or the fault that ends it.
//!
//!     player < PLAN
//!
//! Between the moments of steps the bus runs by itself, except while a tap is withheld.

use std::io::{self, Read};
use std::str::FromStr;

use pbfdl::{Bus, Fault, Params, Priority, Service, Tap};

struct Step {
    at: u64,
    deed: String,
    numbers: Vec<u64>,
    data: Vec<u8>,
}

struct Plan {
    params: Params,
    until: u64,
    names: Vec<String>,
    taps: Vec<Tap>,
    steps: Vec<Step>,
}

fn number<T: FromStr>(word: &str) -> T {
    word.parse().unwrap_or_else(|_| panic!("no number: {word}"))
}

fn data_of(word: &str) -> Vec<u8> {
    let octet = |place| u8::from_str_radix(&word[place..place + 2], 16).expect("hex");
    if word == "-" { Vec::new() } else { (0..word.len()).step_by(2).map(octet).collect() }
}

fn params_of(words: &[&str]) -> Params {
    let numbers: Vec<u32> = words.iter().map(|word| number(word)).collect();
    let [tsl, tid1, tid2, tsdr, lag, ttr, gap, hsa, retries, ttd] = numbers[..] else { panic!("ten parameters") };
    Params { tsl, tid1, tid2, tsdr, lag, ttr, gap, hsa, retries, ttd }
}

fn step_of(at: &str, deed: &str, words: &[&str]) -> Step {
    let (numbers, data) = if deed == "queue" { words.split_at(4) } else { (words, &[][..]) };
    let numbers = numbers.iter().map(|word| number(word)).collect();
    Step { at: number(at), deed: deed.into(), numbers, data: data.first().map_or(Vec::new(), |word| data_of(word)) }
}

fn read_plan(text: &str) -> Plan {
    let mut plan = Plan { params: params_of(&["0"; 10]), until: 0, names: vec![], taps: vec![], steps: vec![] };
    for line in text.lines() {
        match &line.split(' ').collect::<Vec<_>>()[..] {
            ["bus", words @ ..] => plan.params = params_of(words),
            ["until", at] => plan.until = number(at),
            ["tap", name, kind, address, reply] => {
                plan.names.push(name.to_string());
                plan.taps.push(Tap { address: number(address), master: *kind == "master", reply: data_of(reply) });
            }
            ["at", at, deed, words @ ..] => plan.steps.push(step_of(at, deed, words)),
            _ => panic!("no line of a plan: {line}"),
        }
    }
    plan
}

struct Play<'a> {
    plan: &'a Plan,
    bus: &'a mut Bus,
    held_until: Vec<u64>,
}

impl Play<'_> {
    fn does(&mut self, step: &Step) -> Result<(), Fault> {
        let word = |place: usize| step.numbers[place] as usize;
        match step.deed.as_str() {
            "start" => self.bus.start(word(0)),
            "stop" => self.bus.stop(word(0)),
            "noise" => self.bus.noise(step.numbers[0]),
            "damage" => self.bus.damage(word(0), word(1), u8::try_from(word(2)).ok()),
            "unheard" => self.bus.unheard(word(0), word(1)),
            "queue" => {
                let service = [Service::Sda, Service::Sdn, Service::Srd][word(2)];
                let priority = [Priority::Low, Priority::High][word(3)];
                self.bus.queue(word(0), word(1) as u8, service, priority, &step.data)
            }
            _ => {
                let held = &mut self.held_until[word(0)];
                *held = (*held).max(step.at + step.numbers[1]);
                Ok(())
            }
        }
    }

    fn do_steps(&mut self, at: u64, late: bool) -> Result<(), Fault> {
        let plan = self.plan;
        let mut chosen = plan.steps.iter().filter(|step| step.at == at && (step.deed == "unheard") == late);
        chosen.try_for_each(|step| self.does(step))
    }

    fn take_turns(&mut self, at: u64) -> Result<(), Fault> {
        for tap in 0..self.bus.taps() {
            if self.held_until[tap] <= at && self.bus.due(tap)?.is_some_and(|due| due <= at) {
                self.bus.turn(tap)?;
            }
        }
        Ok(())
    }

    /// The next moment at which something changes or a tap may take a turn, at most the target.
    fn next_instant(&self, at: u64, target: u64) -> Result<u64, Fault> {
        let mut next = self.bus.next_change().filter(|&moment| at < moment).unwrap_or(target).min(target);
        for (tap, &held) in self.held_until.iter().enumerate() {
            let comes = if at < held { Some(held) } else { self.bus.due(tap)? };
            next = comes.filter(|&moment| at < moment).unwrap_or(next).min(next);
        }
        Ok(next)
    }

    /// Time goes to the moment of the next step, or to the end.
    fn go(&mut self, target: u64) -> Result<(), Fault> {
        while self.bus.now() < target {
            let now = self.bus.now();
            if self.held_until.iter().all(|&held| held <= now) {
                // The turns of the target come after its steps.
                self.bus.run(target - 1)?;
                return self.bus.pass(1);
            }
            let next = self.next_instant(now, target)?;
            self.bus.pass(next - now)?;
            if next < target {
                self.take_turns(next)?;
            }
        }
        Ok(())
    }

    fn run(&mut self) -> Result<(), Fault> {
        let mut moments: Vec<u64> = self.plan.steps.iter().map(|step| step.at).collect();
        moments.push(self.plan.until);
        moments.retain(|&at| at <= self.plan.until);
        moments.sort();
        moments.dedup();
        for at in moments {
            self.go(at)?;
            self.do_steps(at, false)?;
            self.take_turns(at)?;
            self.do_steps(at, true)?;
        }
        Ok(())
    }
}

fn played(plan: &Plan) -> String {
    let mut bus = match Bus::new(&plan.params, &plan.taps) {
        Ok(bus) => bus,
        Err(fault) => return format!("fault {}", fault.code()),
    };
    let held_until = vec![0; plan.taps.len()];
    if let Err(fault) = (Play { plan, bus: &mut bus, held_until }).run() {
        return format!("fault {} at {}", fault.code(), bus.now());
    }
    let names: Vec<&str> = plan.names.iter().map(String::as_str).collect();
    match bus.audit() {
        Ok(audit) => format!("{}{audit}", bus.trace().text(&names)),
        Err(fault) => format!("fault {}", fault.code()),
    }
}

fn main() -> io::Result<()> {
    let mut text = String::new();
    io::stdin().read_to_string(&mut text)?;
    println!("{}", played(&read_plan(&text)));
    Ok(())
}
