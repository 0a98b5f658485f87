//! The job of `ringplay decode` in plain Rust, with arrays, std alone and no proofs: what the bench
//! measures the program against.

use std::io::{self, Read, Write};
use std::process::ExitCode;

const INPUT_LIMIT: usize = 1_048_576;

/// Room for the octets of the longest telegram, and one that is too many.
const ROOM: usize = 256;

const DIGITS: &[u8; 16] = b"0123456789abcdef";

/// What a byte of hex is worth; `NO_DIGIT` for every other byte.
const VALUES: [u8; 256] = values();

const NO_DIGIT: u8 = 0xff;

const fn values() -> [u8; 256] {
    let mut values = [NO_DIGIT; 256];
    let mut value = 0;
    while value < 16 {
        values[DIGITS[value as usize] as usize] = value;
        values[DIGITS[value as usize].to_ascii_uppercase() as usize] = value;
        value += 1;
    }
    values
}

enum Answer<'a> {
    Short(&'a [u8]),
    Data(&'static str, &'a [u8], &'a [u8]),
    Token(&'a [u8]),
    Ack,
    Fault(u8, &'static str),
}

const TRUNCATED: Answer = Answer::Fault(4, "Truncated");

fn main() -> ExitCode {
    let mut input = Vec::new();
    if io::stdin().lock().read_to_end(&mut input).is_err() || input.len() > INPUT_LIMIT {
        return ExitCode::from(3);
    }
    let mut text = Vec::new();
    let mut refused = false;
    for line in input.split_inclusive(|byte| *byte == b'\n') {
        refused |= push_line(&mut text, without_end(line));
    }
    if io::stdout().lock().write_all(&text).is_err() {
        return ExitCode::from(3);
    }
    ExitCode::from(u8::from(refused))
}

fn without_end(line: &[u8]) -> &[u8] {
    match line {
        [line @ .., b'\r', b'\n'] | [line @ .., b'\n'] => line,
        line => line,
    }
}

/// Appends the line of text for a line of hex, and says whether it is a fault.
fn push_line(text: &mut Vec<u8>, line: &[u8]) -> bool {
    let mut octets = [0; ROOM];
    let refused = match read_characters(&mut octets, line) {
        None => {
            text.extend_from_slice(b"fault 0 NotHex");
            true
        }
        Some((_, Some(place))) => {
            text.extend_from_slice(b"fault 2 Faulty ");
            push_number(text, place);
            true
        }
        Some((count, None)) => push_answer(text, &parse(&octets[..count.min(ROOM)])),
    };
    text.push(b'\n');
    refused
}

/// How many characters a line of hex stands for, and the place of the first damaged one; as many of
/// their octets as there is room for are put into `octets`.
fn read_characters(octets: &mut [u8; ROOM], line: &[u8]) -> Option<(usize, Option<usize>)> {
    let mut count = 0;
    let mut bad = None;
    let mut first = None;
    for &byte in line {
        if byte == b' ' || byte == b'\t' {
            continue;
        }
        let Some(high) = first.take() else {
            first = Some(byte);
            continue;
        };
        let (upper, lower) = (VALUES[high as usize], VALUES[byte as usize]);
        if upper != NO_DIGIT && lower != NO_DIGIT {
            if count < ROOM {
                octets[count] = upper * 16 + lower;
            }
        } else if high == b'-' && byte == b'-' {
            bad = bad.or(Some(count));
        } else {
            return None;
        }
        count += 1;
    }
    if first.is_some() { None } else { Some((count, bad)) }
}

/// The telegram that octets spell, or the first fault.
fn parse(octets: &[u8]) -> Answer<'_> {
    match octets {
        [] => Answer::Fault(1, "Empty"),
        [0xe5] => Answer::Ack,
        [0xe5, ..] => Answer::Fault(12, "Trailing"),
        [0xdc, da, sa, rest @ ..] => {
            if *da > 126 || *sa > 126 {
                Answer::Fault(8, "BadAddress")
            } else if !rest.is_empty() {
                Answer::Fault(12, "Trailing")
            } else {
                Answer::Token(&octets[1..3])
            }
        }
        [0x10, body @ ..] => match parse_body(body, 0) {
            Ok((head, _)) => Answer::Short(head),
            Err(fault) => fault,
        },
        [0xa2, body @ ..] => match parse_body(body, 8) {
            Ok((head, unit)) => Answer::Data("fixed", head, unit),
            Err(fault) => fault,
        },
        [0x68, length, again, second, body @ ..] => {
            if !(4..=249).contains(length) {
                return Answer::Fault(5, "BadLength");
            }
            let count = usize::from(*length) - 3;
            if body.len() < count + 5 {
                return TRUNCATED;
            }
            if again != length {
                return Answer::Fault(6, "LengthsDiffer");
            }
            if *second != 0x68 {
                return Answer::Fault(7, "BadSecondStart");
            }
            match parse_body(body, count) {
                Ok((head, unit)) => Answer::Data("var", head, unit),
                Err(fault) => fault,
            }
        }
        [0x68 | 0xdc, ..] => TRUNCATED,
        _ => Answer::Fault(3, "BadStart"),
    }
}

/// The head (both addresses and the control octet) and the unit, of `count` octets, of what follows
/// the start of a telegram.
fn parse_body(body: &[u8], count: usize) -> Result<(&[u8], &[u8]), Answer<'static>> {
    if body.len() < count + 5 {
        return Err(TRUNCATED);
    }
    let (summed, end) = body.split_at(count + 3);
    let (head, unit) = summed.split_at(3);
    if head[1] % 128 == 127 {
        return Err(Answer::Fault(8, "BadAddress"));
    }
    if head[2] >= 128 {
        return Err(Answer::Fault(9, "BadFc"));
    }
    if end[0] != summed.iter().fold(0, |sum: u8, octet| sum.wrapping_add(*octet)) {
        return Err(Answer::Fault(10, "BadFcs"));
    }
    if end[1] != 0x16 {
        return Err(Answer::Fault(11, "BadEnd"));
    }
    if end.len() > 2 {
        return Err(Answer::Fault(12, "Trailing"));
    }
    Ok((head, unit))
}

/// Appends the text of an answer, and says whether it is a fault.
fn push_answer(text: &mut Vec<u8>, answer: &Answer) -> bool {
    match answer {
        Answer::Short(head) => {
            text.extend_from_slice(b"short");
            push_head(text, head);
        }
        Answer::Data(name, head, unit) => {
            text.extend_from_slice(name.as_bytes());
            push_head(text, head);
            text.extend_from_slice(b" unit=");
            push_octets(text, unit);
        }
        Answer::Token(addresses) => {
            text.extend_from_slice(b"token");
            push_addresses(text, addresses[0], addresses[1]);
        }
        Answer::Ack => text.extend_from_slice(b"ack"),
        Answer::Fault(number, name) => {
            text.extend_from_slice(b"fault ");
            push_number(text, usize::from(*number));
            text.push(b' ');
            text.extend_from_slice(name.as_bytes());
            return true;
        }
    }
    false
}

fn push_head(text: &mut Vec<u8>, head: &[u8]) {
    push_addresses(text, head[0], head[1]);
    text.extend_from_slice(b" fc=");
    push_octets(text, &head[2..]);
}

fn push_addresses(text: &mut Vec<u8>, da: u8, sa: u8) {
    text.extend_from_slice(b" da=");
    push_address(text, da);
    text.extend_from_slice(b" sa=");
    push_address(text, sa);
}

fn push_address(text: &mut Vec<u8>, octet: u8) {
    push_number(text, usize::from(octet % 128));
    if octet >= 128 {
        text.push(b'+');
    }
}

fn push_number(text: &mut Vec<u8>, mut number: usize) {
    let mut digits = [0; 20];
    let mut first = digits.len();
    loop {
        first -= 1;
        digits[first] = b'0' + (number % 10) as u8;
        number /= 10;
        if number == 0 {
            break;
        }
    }
    text.extend_from_slice(&digits[first..]);
}

fn push_octets(text: &mut Vec<u8>, octets: &[u8]) {
    for octet in octets {
        let (high, low) = (usize::from(octet / 16), usize::from(octet % 16));
        text.extend_from_slice(&[DIGITS[high], DIGITS[low]]);
    }
}
