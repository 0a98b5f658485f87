//! Reads a scenario file by the crates toml and hex, for the plain program: any TOML, as a program for users has to.

use super::{Event, Request, Scenario, Service, TapSpec, USUAL};
use std::collections::VecDeque;
use toml::value::{Table, Value};

pub fn scenario_of(text: &str) -> Option<Scenario> {
    let file: Table = toml::from_str(text).ok()?;
    let mut bus = USUAL;
    for (key, value) in file.get("bus")?.as_table()? {
        bus.iter_mut().find(|(name, _)| name == key)?.1 = number(value)?;
    }
    Some(Scenario {
        until: number(file.get("until")?)?,
        bus,
        taps: tables(&file, "tap").map(|table| tap_in(table?)).collect::<Option<_>>()?,
        steps: tables(&file, "step").map(|table| step_in(table?)).collect::<Option<VecDeque<_>>>()?,
    })
}

fn tables<'a>(file: &'a Table, key: &str) -> impl Iterator<Item = Option<&'a Table>> {
    let list = file.get(key).and_then(Value::as_array);
    list.into_iter().flatten().map(Value::as_table)
}

fn number(value: &Value) -> Option<u64> {
    u64::try_from(value.as_integer()?).ok()
}

fn octets(table: &Table, key: &str) -> Option<Vec<u8>> {
    match table.get(key) {
        Some(value) => hex::decode(value.as_str()?).ok(),
        None => Some(Vec::new()),
    }
}

fn tap_in(table: &Table) -> Option<TapSpec> {
    Some(TapSpec {
        master: table.get("kind")?.as_str()? == "master",
        address: number(table.get("address")?)?.try_into().ok()?,
        reply: octets(table, "reply")?,
    })
}

fn step_in(table: &Table) -> Option<(u64, Event)> {
    let at = number(table.get("at")?)?;
    let tap = table.get("tap")?.as_str()?.strip_prefix('t')?.parse().ok()?;
    let event = match table.get("do")?.as_str()? {
        "start" => Event::Start(tap),
        "queue" => Event::Queue { tap, request: request_in(table)? },
        _ => return None,
    };
    Some((at, event))
}

fn request_in(table: &Table) -> Option<Request> {
    let service = match table.get("service")?.as_str()? {
        "sda" => Service::Sda,
        "sdn" => Service::Sdn,
        _ => Service::Srd,
    };
    Some(Request {
        da: number(table.get("to")?)?.try_into().ok()?,
        service,
        high: table.get("high")?.as_bool()?,
        unit: octets(table, "unit")?,
    })
}
