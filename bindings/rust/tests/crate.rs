//! Each type of the crate: what it does, what it refuses, and by which fault.

use pbfdl::{
    Audit, Bus, Entry, Fault, Heard, Indication, Kind, Outcome, Params, Phase, Priority, Receiver, Service, Station, Tap, Telegram,
};
use pbfdl::{ALL_STATIONS, DAMAGED, LAST_MOMENT};

const PARAMS: Params = Params { tsl: 100, tid1: 37, tid2: 60, tsdr: 11, lag: 0, ttr: 10_000, gap: 10, hsa: 5, retries: 1, ttd: 0 };
const REQUEST: [u8; 10] = [0x68, 4, 4, 0x68, 7, 1, 0x7d, 0xaa, 0x2f, 0x16];
const REPLY: [u8; 11] = [0x68, 5, 5, 0x68, 1, 7, 0x0a, 0xbb, 0xcc, 0x99, 0x16];

fn ring() -> Bus {
    let mut bus = Bus::new(&PARAMS, &[Tap::master(1), Tap::master(2), Tap::passive(9, &[0xaa, 0xbb])]).unwrap();
    (0..3).for_each(|tap| bus.start(tap).unwrap());
    bus
}

#[test]
fn faults_have_codes_and_texts() {
    assert_eq!(Fault::from_code(0), None);
    let known: Vec<Fault> = (1..=100).filter_map(Fault::from_code).filter(|it| !matches!(it, Fault::Unknown(_))).collect();
    assert_eq!(known.len(), 55);
    assert!(known.iter().all(|it| Fault::from_code(it.code()) == Some(*it)));
    assert_eq!(Fault::QueueFull.to_string(), "16 requests of the priority wait: let the bus run, then queue again");
    assert_eq!(Fault::from_code(999).unwrap().to_string(), "unknown code 999");
    let error: Box<dyn std::error::Error> = Box::new(Fault::NoMemory);
    assert_eq!(error.to_string(), "memory was refused");
}

#[test]
fn parameters_have_limits() {
    let bad = [
        (Params { tsl: 99, ..PARAMS }, Fault::ParamSlot),
        (Params { tid1: 32, ..PARAMS }, Fault::ParamIdleShort),
        (Params { tid2: 36, ..PARAMS }, Fault::ParamIdleOrder),
        (Params { tsdr: 10, ..PARAMS }, Fault::ParamReplyShort),
        (Params { ttr: 255, ..PARAMS }, Fault::ParamRotation),
        (Params { gap: 0, ..PARAMS }, Fault::ParamGapFactor),
        (Params { hsa: 127, ..PARAMS }, Fault::ParamHighest),
        (Params { retries: 8, ..PARAMS }, Fault::ParamRetries),
        (Params { lag: 40, ..PARAMS }, Fault::ParamTakeLate),
        (Params { tsdr: 100, ..PARAMS }, Fault::ParamReplyLate),
    ];
    for (params, fault) in bad {
        assert_eq!(params.check(), Err(fault));
        assert_eq!(Station::master(&params, 1, &[]).err(), Some(fault));
        assert_eq!(Bus::new(&params, &[]).err(), Some(fault));
    }
}

#[test]
fn telegrams_are_written_and_parsed() {
    let diagnosis = Telegram::with_data(0x89, 0x85, 0x5d, &[0x3c, 0x3e]);
    assert_eq!(diagnosis.octets().unwrap(), [0x68, 5, 5, 0x68, 0x89, 0x85, 0x5d, 0x3c, 0x3e, 0xe5, 0x16]);
    for telegram in [diagnosis, Telegram::short_ack(), Telegram::token(2, 1), Telegram::with_data(9, 5, 0x7d, &[0; 8])] {
        assert_eq!(Telegram::parse(&telegram.octets().unwrap()), Ok(telegram));
    }
    assert_eq!(Telegram::parse(&[]), Err(Fault::Empty));
    assert_eq!(Telegram::parse(&[0xdc, 0x7f, 1]), Err(Fault::BadAddress));
    assert_eq!(Telegram { kind: Kind::Sd2, ..Telegram::short_ack() }.octets(), Err(Fault::BadLength));
    assert_eq!(Telegram::with_data(1, 2, 3, &[0; 247]).octets(), Err(Fault::BadKind));
}

#[test]
fn a_receiver_takes_a_burst() {
    let mut receiver = Receiver::new();
    assert_eq!(receiver.telegram(), Err(Fault::Empty));
    assert_eq!(receiver.receive(0xe5), Ok(Some(Telegram::short_ack())));
    assert_eq!(receiver.receive(DAMAGED), Err(Fault::Damaged));
    assert_eq!(receiver.characters(), [0xe5, DAMAGED]);
    (0..253).for_each(|_| assert_eq!(receiver.receive(0), Err(Fault::Damaged)));
    assert_eq!(receiver.receive(0), Err(Fault::TooLong));
    assert_ne!(receiver, Receiver::default());
}

#[test]
fn a_station_refuses_by_name() {
    assert_eq!(Station::master(&PARAMS, 6, &[]).err(), Some(Fault::BadStation));
    assert_eq!(Station::passive(&PARAMS, 127, &[]).err(), Some(Fault::BadStation));
    assert_eq!(Station::passive(&PARAMS, 1, &[0; 247]).err(), Some(Fault::LongData));
    assert_eq!(Station::master_with_room(1, &PARAMS, 6, &[]).err(), Some(Fault::BadRoom));
    assert_eq!(Station::passive_with_room(65, &PARAMS, 1, &[]).err(), Some(Fault::BadRoom));
    let mut station = Station::master(&PARAMS, 1, &[]).unwrap();
    assert_eq!((station.due(), station.phase()), (None, Phase::Offline));
    station.start(100).unwrap();
    assert_eq!(station.turn(99), Err(Fault::Backwards));
    assert_eq!(station.turn(LAST_MOMENT + 1), Err(Fault::TooLate));
    assert_eq!(station.begin(101, 100), Err(Fault::Ahead));
    assert_eq!(station.end(100, 100, &[0; 256]), Err(Fault::TooLong));
    assert_eq!(station.end_with(100, 100, &[0; 256]), Err(Fault::TooLong));
    assert_eq!(station.is_active(127), Err(Fault::BadStation));
    assert_eq!(station.set_reply(&[0; 247]), Err(Fault::LongData));
    assert_eq!(station.push(ALL_STATIONS, Service::Sda, Priority::Low, &[]), Err(Fault::BadStation));
    (0..16).for_each(|_| station.push(ALL_STATIONS, Service::Sdn, Priority::High, &[0; 246]).unwrap());
    assert_eq!(station.push(2, Service::Sda, Priority::High, &[]), Err(Fault::QueueFull));
    for _ in 0..32 {
        station.begin(100, 100).unwrap();
        station.end_with(100, 100, &[0x10, DAMAGED]).unwrap();
    }
    assert_eq!(station.noise(100, 100), Err(Fault::InboxFull));
}

#[test]
fn a_station_has_room_for_two_marks() {
    let mut station = Station::master_with_room(2, &PARAMS, 1, &[]).unwrap();
    station.start(100).unwrap();
    for _ in 0..2 {
        station.begin(100, 100).unwrap();
        station.noise(100, 100).unwrap();
        assert_eq!(station.begin(100, 100), Err(Fault::InboxFull));
        assert_eq!(station.turn(100).unwrap(), []);
    }
}

#[test]
fn a_station_takes_data_and_replies() {
    let mut station = Station::passive(&PARAMS, 7, &[]).unwrap();
    station.start(0).unwrap();
    station.set_reply(&[0xbb, 0xcc]).unwrap();
    station.begin(100, 100).unwrap();
    station.end(210, 210, &REQUEST).unwrap();
    assert_eq!(station.turn(210).unwrap(), []);
    let indication = Indication { source: 1, service: Service::Srd, priority: Priority::High, data: vec![0xaa] };
    assert_eq!(station.indications(), [indication]);
    assert_eq!(station.turn(221).unwrap(), REPLY);
    assert_eq!((station.executed(), station.indications()), (1, vec![]));
    station.stop();
    assert_eq!(format!("{station:?}"), "Station { phase: Offline, due: None }");
}

#[test]
fn a_bus_refuses_by_name() {
    assert_eq!(Bus::new(&PARAMS, &[]).err(), Some(Fault::NoTaps));
    assert_eq!(Bus::new(&PARAMS, &vec![Tap::passive(0, &[]); 128]).err(), Some(Fault::TooManyTaps));
    assert_eq!(Bus::new(&PARAMS, &[Tap::master(6)]).err(), Some(Fault::BadStation));
    assert_eq!(Bus::new(&PARAMS, &[Tap::passive(6, &[0; 247])]).err(), Some(Fault::LongData));
    let mut bus = ring();
    assert_eq!(bus.start(0), Err(Fault::Running));
    assert_eq!(bus.turn(3), Err(Fault::NoSuchTap));
    assert_eq!(bus.pass(0), Err(Fault::ZeroTime));
    assert_eq!(bus.noise(1 << 32), Err(Fault::TooFar));
    assert_eq!(bus.damage(0, 1, None), Err(Fault::NothingInAir));
    assert_eq!(bus.unheard(0, 1), Err(Fault::NothingInAir));
    assert_eq!(bus.queue(2, 1, Service::Sda, Priority::Low, &[]), Err(Fault::NotRunning));
    assert_eq!(bus.queue(0, 1, Service::Srd, Priority::Low, &[0; 247]), Err(Fault::LongData));
    assert_eq!(bus.run(1_000_000_000_001), Err(Fault::ClockFull));
    assert_eq!(bus.phase(3), Err(Fault::NoSuchTap));
    assert_eq!((bus.now(), bus.trace().len()), (0, 0));
    bus.run(820).unwrap();
    assert_eq!(bus.pass(14), Err(Fault::TooFar));
    assert_eq!(bus.run(819), Err(Fault::Backwards));
}

#[test]
fn a_bus_runs_and_is_judged() {
    let mut bus = ring();
    bus.queue(0, 9, Service::Srd, Priority::High, &[1]).unwrap();
    bus.run(2000).unwrap();
    assert_eq!(bus.outcome(0), Ok(Some(Outcome::Data(9, vec![0xaa, 0xbb]))));
    assert_eq!((bus.executed(2), bus.is_active(0, 2), bus.phase(2)), (Ok(1), Ok(true), Ok(Phase::PassiveIdle)));
    assert_eq!(bus.audit().unwrap().to_string(), "premises kept\ntrace legal");
    let heard = vec![Heard::Own, Heard::Whole, Heard::Whole];
    let first = Entry::Sent { begin: 800, end: 833, tap: 0, octets: vec![0xdc, 1, 1], heard };
    let entries: Vec<Entry> = bus.trace().into_iter().collect();
    assert_eq!((entries.first(), entries.len()), (Some(&first), bus.trace().len()));
    assert_eq!(first.line(&["a"]), "800 833 a dc0101 -ww");
    assert_eq!(bus.trace().get(entries.len()), None);
}

#[test]
fn a_bus_keeps_what_a_slave_executes() {
    let mut bus = ring();
    assert_eq!(bus.indications(2), Err(Fault::NoIndication));
    assert_eq!(bus.keep_indications(3, 1), Err(Fault::NoSuchTap));
    assert_eq!(bus.keep_indications(2, usize::MAX), Err(Fault::NoMemory));
    bus.keep_indications(2, 1).unwrap();
    for octet in [7, 8] {
        bus.queue(0, 9, Service::Srd, Priority::High, &[octet]).unwrap();
    }
    bus.run(4000).unwrap();
    let first = Indication { source: 1, service: Service::Srd, priority: Priority::High, data: vec![7] };
    assert_eq!(bus.executed(2), Ok(2));
    assert_eq!(bus.take_indications(2), Ok(vec![first]));
    assert_eq!(bus.indications(2), Ok(vec![]));
}

#[test]
fn a_ring_settles_as_its_second_master_gets_the_token() {
    let mut bus = ring();
    bus.run(1152).unwrap();
    assert!(!bus.is_settled());
    bus.run(1153).unwrap();
    assert!(bus.is_settled());
}

#[test]
fn a_tap_replies_with_other_data() {
    let mut bus = ring();
    bus.run(2000).unwrap();
    bus.set_reply(2, &[0xcc]).unwrap();
    bus.queue(0, 9, Service::Srd, Priority::Low, &[]).unwrap();
    bus.run(4000).unwrap();
    assert_eq!(bus.outcome(0), Ok(Some(Outcome::Data(9, vec![0xcc]))));
    assert_eq!(bus.audit().unwrap().to_string(), "premises kept\ntrace legal");
    assert_eq!(bus.set_reply(2, &[0; 247]), Err(Fault::LongData));
    assert_eq!(bus.set_reply(3, &[]), Err(Fault::NoSuchTap));
}

#[test]
fn a_bus_runs_on_without_what_is_over() {
    let mut whole = ring();
    whole.run(20_000).unwrap();
    let entries: Vec<Entry> = whole.trace().into_iter().collect();
    let mut bus = ring();
    let mut settled = Vec::new();
    for step in 1..21 {
        bus.run(step * 1_000).unwrap();
        settled.extend(bus.take_settled().unwrap());
        assert_eq!(bus.take_settled(), Ok(vec![]));
    }
    assert!(settled.len() > 200 && bus.trace().len() < 5);
    settled.extend(bus.trace());
    assert_eq!(settled, entries);
    assert_eq!((bus.audit(), bus.now()), (whole.audit(), 20_000));
}

#[test]
fn the_entries_that_are_let_go_count() {
    let taps = [Tap::master(1), Tap::master(2)];
    let mut bus = Bus::within(&PARAMS, &taps, 10).unwrap();
    bus.start(0).unwrap();
    bus.start(1).unwrap();
    bus.run(1_200).unwrap();
    let settled = bus.take_settled().unwrap().len();
    assert!(settled > 2);
    assert_eq!(bus.run(100_000), Err(Fault::TraceFull));
    assert_eq!(settled + bus.trace().len(), 10);
}

#[test]
fn an_audit_finds_a_lost_telegram() {
    let mut bus = ring();
    bus.run(800).unwrap();
    bus.unheard(1, 0).unwrap();
    bus.run(900).unwrap();
    assert_eq!(bus.audit(), Ok(Audit { premise: Some((2, 800)), illegal: None }));
}
