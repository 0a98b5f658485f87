//! A monitor: what it says, what it counts, and what it refuses.

use pbfdl::{Fault, Form, Monitor, MonitorOptions, Params, Role, Spread, Summary};

const PARAMS: Params = Params { tsl: 100, tid1: 37, tid2: 60, tsdr: 11, lag: 0, ttr: 10_000, gap: 10, hsa: 5, retries: 1, ttd: 0 };
const RING: &[u8] = b"800 833 dc0101\n870 903 dc0101\n940 1006 100201494c16\n1017 1083 100102202316\n1120 1153 dc0201\n";
const SAID: &str = "800 833 token da=1 sa=1 | token to itself | holder 1
870 903 token da=1 sa=1 | token to itself | holder 1
940 1006 short da=2 sa=1 fc=49 | FDL status request | holder 1
1017 1083 short da=1 sa=2 fc=20 | reply: OK, master ready | holder 1
1120 1153 token da=2 sa=1 | token to 2 | offered to 2
";

fn judge(options: &MonitorOptions) -> Monitor {
    Monitor::new(Some(&PARAMS), options).unwrap()
}

#[test]
fn each_cut_of_a_capture_is_said_alike() {
    for step in [1, 7, RING.len()] {
        let mut monitor = judge(&MonitorOptions::default());
        let said: String = RING.chunks(step).map(|it| monitor.feed(it).unwrap()).collect();
        assert_eq!(said, SAID);
        assert!(monitor.finish().unwrap().starts_with("bus: bursts 5, from 800 to 1153"));
        assert!(!monitor.is_refused());
    }
}

#[test]
fn it_counts() {
    let mut monitor = judge(&MonitorOptions::default());
    assert_eq!((monitor.traffic().span, monitor.station(1).unwrap().last_heard), (None, None));
    monitor.feed(RING).unwrap();
    let (traffic, station) = (monitor.traffic(), monitor.station(1).unwrap());
    assert_eq!((traffic.span, traffic.bursts, traffic.alarms), (Some((800, 1153)), 5, 0));
    assert_eq!((station.role, station.tokens, station.polls, station.last_heard), (Role::InRing, 3, 1, Some(1153)));
    let asked = monitor.station(2).unwrap();
    assert_eq!((asked.role, asked.replying), (Role::Ready, Spread { count: 1, total: 11, least: 11, greatest: 11 }));
    assert_eq!(monitor.station(127).err(), Some(Fault::BadStation));
    assert_eq!(format!("{monitor:?}"), "Monitor { bursts: 5 }");
}

#[test]
fn it_raises_alarms_of_the_classes() {
    let wrong = b"800 833 dc0101\n870 903 dc0201\n920 953 dc0103\n";
    for (legality, alarms) in [(true, 1), (false, 0)] {
        let mut monitor = judge(&MonitorOptions { legality, loss: false, timing: false, ..MonitorOptions::default() });
        assert_eq!(monitor.feed(wrong).unwrap().contains("alarm at 920 by 3: SpokeOutOfTurn"), legality);
        assert_eq!((monitor.traffic().alarms, monitor.is_refused()), (alarms, legality));
    }
    let mut monitor = Monitor::new(None, &MonitorOptions::default()).unwrap();
    monitor.feed(wrong).unwrap();
    assert!(!monitor.is_refused());
}

#[test]
fn it_reads_each_form() {
    let mut monitor = judge(&MonitorOptions { form: Form::Raw, ..MonitorOptions::default() });
    assert_eq!(monitor.feed(&[0xdc, 2, 1]).unwrap(), "0 token da=2 sa=1 | token to 2\n");
    let mut monitor = judge(&MonitorOptions { form: Form::Pcap, baud: Some(500_000), ..MonitorOptions::default() });
    monitor.feed(b"what").unwrap();
    monitor.finish().unwrap();
    assert!(monitor.is_refused());
    let mut monitor = judge(&MonitorOptions { summary: Some(Summary::Json), every: None, ..MonitorOptions::default() });
    assert_eq!(monitor.feed(RING).unwrap(), "");
    assert!(monitor.finish().unwrap().starts_with('{'));
}

#[test]
fn it_refuses_by_name() {
    let bad = Params { lag: 40, ..PARAMS };
    assert_eq!(Monitor::new(Some(&bad), &MonitorOptions::default()).err(), Some(Fault::ParamTakeLate));
    let mut monitor = judge(&MonitorOptions::default());
    assert_eq!(monitor.feed(&[]), Ok(String::new()));
    monitor.finish().unwrap();
    assert_eq!(monitor.finish(), Err(Fault::Finished));
    assert_eq!(monitor.feed(RING), Err(Fault::Finished));
}
