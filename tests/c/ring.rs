//! The ring of examples/c/ring.c from Rust.
//!
//!     rustc -O ring.rs -L FOLDER -l static=pbfdl -l static=libc_c && ./ring [UNTIL]

use std::ffi::c_void;

const NEVER: u64 = u64::MAX;
const CHARACTER_BITS: u64 = 11;

#[repr(C)]
struct Port {
    at: *mut c_void,
}

#[repr(C)]
struct Params {
    tsl: u32,
    tid1: u32,
    tid2: u32,
    tsdr: u32,
    lag: u32,
    ttr: u32,
    gap: u32,
    hsa: u32,
    retries: u32,
    ttd: u32,
}

unsafe extern "C" {
    fn fdl_port_new(
        port: *mut Port,
        params: *const Params,
        address: u8,
        master: bool,
        reply: *const u8,
        count: usize,
    ) -> u32;
    fn fdl_port_free(port: *mut Port);
    fn fdl_port_start(port: *mut Port, now: u64) -> u32;
    fn fdl_port_begin(port: *mut Port, at: u64, seen: u64) -> u32;
    fn fdl_port_end_good(port: *mut Port, at: u64, seen: u64, octets: *const u8, count: usize) -> u32;
    fn fdl_port_due(port: *mut Port, at: *mut u64) -> u32;
    fn fdl_port_turn(port: *mut Port, now: u64, out: *mut u8, room: usize, count: *mut usize) -> u32;
}

struct Master(Port);

impl Master {
    fn new(address: u8, params: &Params) -> Master {
        let mut port = Port { at: std::ptr::null_mut() };
        assert_eq!(unsafe { fdl_port_new(&mut port, params, address, true, [].as_ptr(), 0) }, 0);
        assert_eq!(unsafe { fdl_port_start(&mut port, 0) }, 0);
        Master(port)
    }

    fn due(&mut self) -> u64 {
        let mut at = NEVER;
        assert_eq!(unsafe { fdl_port_due(&mut self.0, &mut at) }, 0);
        at
    }

    fn begin(&mut self, at: u64) {
        assert_eq!(unsafe { fdl_port_begin(&mut self.0, at, at) }, 0);
    }

    fn end(&mut self, at: u64, octets: &[u8]) {
        let code = unsafe { fdl_port_end_good(&mut self.0, at, at, octets.as_ptr(), octets.len()) };
        assert_eq!(code, 0);
    }

    fn turn(&mut self, now: u64) -> Vec<u8> {
        let (mut out, mut count) = ([0; 255], 0);
        let code = unsafe { fdl_port_turn(&mut self.0, now, out.as_mut_ptr(), out.len(), &mut count) };
        assert_eq!(code, 0);
        out[..count].to_vec()
    }
}

impl Drop for Master {
    fn drop(&mut self) {
        unsafe { fdl_port_free(&mut self.0) }
    }
}

struct Telegram {
    end: u64,
    sender: usize,
    octets: Vec<u8>,
}

fn take_turn(ring: &mut [Master; 2], sender: usize, now: u64) -> Option<Telegram> {
    let octets = ring[sender].turn(now);
    if octets.is_empty() {
        return None;
    }
    ring[1 - sender].begin(now);
    let end = now + CHARACTER_BITS * octets.len() as u64;
    let hex: String = octets.iter().map(|octet| format!("{octet:02x}")).collect();
    println!("{now} {end} {} {hex}", ["a", "b"][sender]);
    Some(Telegram { end, sender, octets })
}

fn main() {
    let until = std::env::args().nth(1).map_or(1400, |word| word.parse().unwrap());
    let params = Params {
        tsl: 100,
        tid1: 37,
        tid2: 60,
        tsdr: 11,
        lag: 0,
        ttr: 10_000,
        gap: 10,
        hsa: 5,
        retries: 1,
        ttd: 0,
    };
    let mut ring = [Master::new(1, &params), Master::new(2, &params)];
    let mut wire: Option<Telegram> = None;
    loop {
        let ends = wire.as_ref().map_or(NEVER, |telegram| telegram.end);
        let now = ring.iter_mut().map(Master::due).min().unwrap().min(ends);
        if now > until {
            break;
        }
        if let Some(ended) = wire.take_if(|telegram| telegram.end <= now) {
            ring[1 - ended.sender].end(ended.end, &ended.octets);
        }
        for sender in 0..2 {
            if ring[sender].due() <= now {
                wire = take_turn(&mut ring, sender, now).or(wire);
            }
        }
    }
}
