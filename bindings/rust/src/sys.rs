//! The functions of libpbfdl as `pbfdl.h` declares them, which says what a caller owes.
#![allow(missing_docs, non_camel_case_types)]

use core::ffi::c_void;

pub use crate::params::Params as fdl_params;

/// What `fdl_port_turn` needs room for.
pub const FDL_TELEGRAM_MAX: usize = 255;
/// The moment that never comes.
pub const FDL_NEVER: u64 = u64::MAX;
/// How many octets of data a telegram has at most.
pub const FDL_MOST_DATA: usize = 246;
/// How many taps a bus has at most.
pub const FDL_MOST_TAPS: usize = 127;

#[repr(C)]
#[derive(Clone, Copy, Debug)]
pub struct fdl_telegram {
    pub kind: u8,
    pub da: u8,
    pub sa: u8,
    pub fc: u8,
    pub count: u8,
    pub unit: [u8; FDL_MOST_DATA],
}

impl Default for fdl_telegram {
    fn default() -> fdl_telegram {
        fdl_telegram { kind: 0, da: 0, sa: 0, fc: 0, count: 0, unit: [0; FDL_MOST_DATA] }
    }
}

#[repr(C)]
#[derive(Clone, Copy, Debug)]
pub struct fdl_receiver {
    pub count: u16,
    pub characters: [u16; FDL_TELEGRAM_MAX],
}

#[repr(C)]
#[derive(Debug)]
pub struct fdl_port {
    pub at: *mut c_void,
}

#[repr(C)]
#[derive(Clone, Copy, Debug)]
pub struct fdl_outcome {
    pub kind: u8,
    pub station: u8,
    pub count: u8,
    pub data: [u8; FDL_MOST_DATA],
}

#[repr(C)]
#[derive(Clone, Copy, Debug)]
pub struct fdl_indication {
    pub source: u8,
    pub service: u8,
    pub high: bool,
    pub count: u8,
    pub data: [u8; FDL_MOST_DATA],
}

#[repr(C)]
#[derive(Debug)]
pub struct fdl_bus {
    pub at: *mut c_void,
}

#[repr(C)]
#[derive(Clone, Copy, Debug)]
pub struct fdl_tap {
    pub address: u8,
    pub master: bool,
    pub count: u8,
    pub reply: [u8; FDL_MOST_DATA],
}

#[repr(C)]
#[derive(Clone, Copy, Debug)]
pub struct fdl_entry {
    pub begin: u64,
    pub end: u64,
    pub noise: bool,
    pub tap: u8,
    pub count: u8,
    pub octets: [u8; FDL_TELEGRAM_MAX],
    pub heard: [u8; FDL_MOST_TAPS],
}

#[repr(C)]
#[derive(Clone, Copy, Debug)]
pub struct fdl_audit {
    pub premise: u8,
    pub moment: u64,
    pub illegal: bool,
    pub entry: u64,
}

#[repr(C)]
#[derive(Debug)]
pub struct fdl_monitor {
    pub at: *mut c_void,
}

#[repr(C)]
#[derive(Clone, Copy, Debug)]
pub struct fdl_monitor_options {
    pub form: u8,
    pub summary: u8,
    pub judges: bool,
    pub legality: bool,
    pub loss: bool,
    pub timing: bool,
    pub every: u64,
    pub baud: u32,
    pub slack: u32,
}

#[repr(C)]
#[derive(Clone, Copy, Debug, Default)]
pub struct fdl_traffic {
    pub timed: bool,
    pub complete: bool,
    pub first: u64,
    pub last: u64,
    pub busy: u64,
    pub bursts: u64,
    pub after_loss: u64,
    pub taking: u64,
    pub replying: u64,
    pub other: u64,
    pub longest_silence: u64,
    pub alarms: u64,
    pub refused: u64,
}

/// Some durations in bit times: how many, their sum, the least and the greatest (0 where there is none).
#[repr(C)]
#[derive(Clone, Copy, Debug, Default, PartialEq, Eq, Hash)]
pub struct fdl_spread {
    pub count: u64,
    pub total: u64,
    pub least: u64,
    pub greatest: u64,
}

#[repr(C)]
#[derive(Clone, Copy, Debug, Default)]
pub struct fdl_station_counts {
    pub role: u8,
    pub active: bool,
    pub timed: bool,
    pub last_heard: u64,
    pub telegrams: u64,
    pub tokens: u64,
    pub claims: u64,
    pub requests: u64,
    pub polls: u64,
    pub repeats: u64,
    pub unanswered: u64,
    pub damaged_answers: u64,
    pub polled: u64,
    pub tokens_not_taken: u64,
    pub rotation: fdl_spread,
    pub taking: fdl_spread,
    pub replying: fdl_spread,
}

extern "C" {
    pub fn fdl_params_fault(params: *const fdl_params) -> u32;
    pub fn fdl_parse(octets: *const u8, count: usize, telegram: *mut fdl_telegram) -> u32;
    pub fn fdl_write(telegram: *const fdl_telegram, out: *mut u8, room: usize, count: *mut usize) -> u32;
    pub fn fdl_receive(receiver: *mut fdl_receiver, character: u16) -> u32;
    pub fn fdl_received(receiver: *const fdl_receiver, telegram: *mut fdl_telegram) -> u32;

    pub fn fdl_port_new(
        port: *mut fdl_port,
        params: *const fdl_params,
        address: u8,
        master: bool,
        reply: *const u8,
        count: usize,
    ) -> u32;
    pub fn fdl_port_new_with_room(
        port: *mut fdl_port,
        room: usize,
        params: *const fdl_params,
        address: u8,
        master: bool,
        reply: *const u8,
        count: usize,
    ) -> u32;
    pub fn fdl_port_free(port: *mut fdl_port);
    pub fn fdl_port_start(port: *mut fdl_port, now: u64) -> u32;
    pub fn fdl_port_stop(port: *mut fdl_port) -> u32;
    pub fn fdl_port_push(port: *mut fdl_port, da: u8, service: u8, high: bool, data: *const u8, count: usize) -> u32;
    pub fn fdl_port_begin(port: *mut fdl_port, at: u64, seen: u64) -> u32;
    pub fn fdl_port_end(port: *mut fdl_port, at: u64, seen: u64, characters: *const u16, count: usize) -> u32;
    pub fn fdl_port_end_good(port: *mut fdl_port, at: u64, seen: u64, octets: *const u8, count: usize) -> u32;
    pub fn fdl_port_noise(port: *mut fdl_port, at: u64, seen: u64) -> u32;
    pub fn fdl_port_due(port: *mut fdl_port, at: *mut u64) -> u32;
    pub fn fdl_port_turn(port: *mut fdl_port, now: u64, out: *mut u8, room: usize, count: *mut usize) -> u32;
    pub fn fdl_port_set_reply(port: *mut fdl_port, reply: *const u8, count: usize) -> u32;
    pub fn fdl_port_indications(port: *mut fdl_port, count: *mut usize) -> u32;
    pub fn fdl_port_indication(port: *mut fdl_port, index: usize, indication: *mut fdl_indication) -> u32;
    pub fn fdl_port_phase(port: *mut fdl_port, phase: *mut u32) -> u32;
    pub fn fdl_port_is_active(port: *mut fdl_port, address: u8, active: *mut bool) -> u32;
    pub fn fdl_port_executed(port: *mut fdl_port, count: *mut u64) -> u32;
    pub fn fdl_port_outcome(port: *mut fdl_port, outcome: *mut fdl_outcome) -> u32;

    pub fn fdl_bus_new(bus: *mut fdl_bus, params: *const fdl_params, taps: *const fdl_tap, count: usize) -> u32;
    pub fn fdl_bus_new_within(
        bus: *mut fdl_bus,
        params: *const fdl_params,
        taps: *const fdl_tap,
        count: usize,
        entries: usize,
    ) -> u32;
    pub fn fdl_bus_free(bus: *mut fdl_bus);
    pub fn fdl_bus_start(bus: *mut fdl_bus, tap: usize) -> u32;
    pub fn fdl_bus_stop(bus: *mut fdl_bus, tap: usize) -> u32;
    pub fn fdl_bus_turn(bus: *mut fdl_bus, tap: usize) -> u32;
    pub fn fdl_bus_pass(bus: *mut fdl_bus, bits: u64) -> u32;
    pub fn fdl_bus_noise(bus: *mut fdl_bus, bits: u64) -> u32;
    pub fn fdl_bus_damage(bus: *mut fdl_bus, tap: usize, speaker: usize, place: u32) -> u32;
    pub fn fdl_bus_unheard(bus: *mut fdl_bus, tap: usize, speaker: usize) -> u32;
    pub fn fdl_bus_queue(bus: *mut fdl_bus, tap: usize, da: u8, service: u8, high: bool, data: *const u8, count: usize) -> u32;
    pub fn fdl_bus_set_reply(bus: *mut fdl_bus, tap: usize, reply: *const u8, count: usize) -> u32;
    pub fn fdl_bus_run(bus: *mut fdl_bus, until: u64) -> u32;
    pub fn fdl_bus_now(bus: *mut fdl_bus, now: *mut u64) -> u32;
    pub fn fdl_bus_due(bus: *mut fdl_bus, tap: usize, at: *mut u64) -> u32;
    pub fn fdl_bus_next_change(bus: *mut fdl_bus, at: *mut u64) -> u32;
    pub fn fdl_bus_is_settled(bus: *mut fdl_bus, settled: *mut bool) -> u32;
    pub fn fdl_bus_keep_indications(bus: *mut fdl_bus, tap: usize, room: usize) -> u32;
    pub fn fdl_bus_indications(bus: *mut fdl_bus, tap: usize, count: *mut usize) -> u32;
    pub fn fdl_bus_indication(bus: *mut fdl_bus, tap: usize, index: usize, indication: *mut fdl_indication) -> u32;
    pub fn fdl_bus_forget_indications(bus: *mut fdl_bus, tap: usize) -> u32;
    pub fn fdl_bus_phase(bus: *mut fdl_bus, tap: usize, phase: *mut u32) -> u32;
    pub fn fdl_bus_is_active(bus: *mut fdl_bus, tap: usize, address: u8, active: *mut bool) -> u32;
    pub fn fdl_bus_executed(bus: *mut fdl_bus, tap: usize, count: *mut u64) -> u32;
    pub fn fdl_bus_outcome(bus: *mut fdl_bus, tap: usize, outcome: *mut fdl_outcome) -> u32;
    pub fn fdl_bus_entries(bus: *mut fdl_bus, count: *mut usize) -> u32;
    pub fn fdl_bus_entry(bus: *mut fdl_bus, index: usize, entry: *mut fdl_entry) -> u32;
    pub fn fdl_bus_over(bus: *mut fdl_bus, count: *mut usize) -> u32;
    pub fn fdl_bus_let_go(bus: *mut fdl_bus, count: *mut usize) -> u32;
    pub fn fdl_bus_audit(bus: *mut fdl_bus, audit: *mut fdl_audit) -> u32;

    pub fn fdl_monitor_new(monitor: *mut fdl_monitor, options: *const fdl_monitor_options, params: *const fdl_params) -> u32;
    pub fn fdl_monitor_free(monitor: *mut fdl_monitor);
    pub fn fdl_monitor_feed(monitor: *mut fdl_monitor, octets: *const u8, count: usize) -> u32;
    pub fn fdl_monitor_finish(monitor: *mut fdl_monitor) -> u32;
    pub fn fdl_monitor_next(monitor: *mut fdl_monitor, out: *mut u8, room: usize, count: *mut usize) -> u32;
    pub fn fdl_monitor_is_refused(monitor: *mut fdl_monitor, refused: *mut bool) -> u32;
    pub fn fdl_monitor_traffic(monitor: *mut fdl_monitor, traffic: *mut fdl_traffic) -> u32;
    pub fn fdl_monitor_station(monitor: *mut fdl_monitor, address: u8, counts: *mut fdl_station_counts) -> u32;
}
