//! Messages a second: the proved soft tag beside the second program's.
//!
//! Both sides are called through a pointer with an exchange and a number of times. Each reads the sheet once, and then
//! so many times powers the tag up and sends it the messages of the exchange. The draws are given, so the same answer
//! to a challenge is accepted each time. The proved tag is kept as the image of bytes that the library hands out, and
//! each of its calls takes the tag from there; how long a power-up takes is told by itself. The tag has two key
//! records, and once more, of the proved tag, sixteen: the last is the one that is named.

use crate::exchanges::{all, areas, tag_sheet, Exchange, DRAWS};
use crate::memory::Memory;
use crate::session::Session;
use crate::sheet;
use crate::tag::{Answer, Tag, ROOM};
use std::hint::black_box;
use std::time::Instant;

/// The bytes of a kept tag.
const IMAGE: usize = 793;

#[link(name = "capi", kind = "static")]
extern "C" {
    fn roualint_sheet(sheet: *const u8, sheet_bytes: usize, tag: &mut [u8; IMAGE], place: &mut usize) -> u8;
    fn roualint_power_up(tag: &mut [u8; IMAGE]) -> u8;
    fn roualint_message(
        tag: &mut [u8; IMAGE],
        message: *const u8,
        message_bytes: usize,
        draws: *const u8,
        draws_bytes: usize,
        room: *mut u8,
        room_bytes: usize,
        identity: *mut u8,
        identity_bytes: usize,
        user: *mut u8,
        user_bytes: usize,
        told: &mut usize,
        purpose: &mut u8,
    ) -> u8;
}

/// What is lent to a tag.
struct Bench {
    sheet: Vec<u8>,
    room: [u8; ROOM],
    memory: Memory,
}

impl Bench {
    fn new(keys: u8) -> Bench {
        Bench {
            sheet: tag_sheet(keys),
            room: [0xa5; ROOM],
            memory: areas(),
        }
    }
}

/// How many exchanges ended with an accepted message.
type Play = fn(&Exchange, &mut Bench, usize) -> usize;

fn rust(exchange: &Exchange, bench: &mut Bench, times: usize) -> usize {
    let mut tag = Tag::power_up(sheet::read(&bench.sheet).expect("a good sheet"));
    let mut accepted = 0;
    for _ in 0..times {
        tag.session = Session::Initial;
        let mut answer = tag.step(black_box(&exchange.first), &DRAWS, &mut bench.room, &mut bench.memory);
        if !exchange.second.is_empty() {
            answer = tag.step(black_box(&exchange.second), &DRAWS, &mut bench.room, &mut bench.memory);
        }
        accepted += usize::from(matches!(answer, Answer::Accepted(..)));
    }
    accepted
}

fn rattle(exchange: &Exchange, bench: &mut Bench, times: usize) -> usize {
    let mut tag = kept(&bench.sheet);
    let mut accepted = 0;
    for _ in 0..times {
        power_up(&mut tag);
        let mut number = send(&mut tag, black_box(&exchange.first), bench);
        if !exchange.second.is_empty() {
            number = send(&mut tag, black_box(&exchange.second), bench);
        }
        accepted += usize::from(number == 0);
    }
    accepted
}

/// The image of a tag.
fn kept(sheet: &[u8]) -> [u8; IMAGE] {
    let (mut tag, mut place) = ([0; IMAGE], 0);
    // The Rattle function reads the sheet's bytes, writes tag and place, and keeps no pointer.
    let number = unsafe { roualint_sheet(sheet.as_ptr(), sheet.len(), &mut tag, &mut place) };
    assert_eq!(number, 0, "a good sheet");
    tag
}

fn power_up(tag: &mut [u8; IMAGE]) {
    // The Rattle function reads and writes the tag's bytes alone.
    let number = unsafe { roualint_power_up(tag) };
    assert_eq!(number, 0, "a tag");
}

/// The number of a message: 0 where it is accepted.
fn send(tag: &mut [u8; IMAGE], message: &[u8], bench: &mut Bench) -> u8 {
    let (identity, user) = (&mut bench.memory.identity, &mut bench.memory.user);
    let (mut told, mut purpose) = (0, 0);
    // The Rattle function reads and writes the bytes that each pointer and length name, no two of which overlap, and
    // keeps none of the pointers.
    unsafe {
        roualint_message(
            tag,
            message.as_ptr(),
            message.len(),
            DRAWS.as_ptr(),
            DRAWS.len(),
            bench.room.as_mut_ptr(),
            bench.room.len(),
            identity.as_mut_ptr(),
            identity.len(),
            user.as_mut_ptr(),
            user.len(),
            &mut told,
            &mut purpose,
        )
    }
}

const ROUNDS: usize = 200;
const TIMES: usize = 500;

/// Prints the figures, or gives the name of the exchange in which the two differ.
pub fn measure() -> Result<(), String> {
    let all = all();
    if let Some(exchange) = all.iter().find(|exchange| !alike(exchange)) {
        return Err(exchange.name.clone());
    }
    let mut best = vec![[0.0f64; 3]; all.len()];
    for _ in 0..ROUNDS {
        for (figures, exchange) in best.iter_mut().zip(&all) {
            figures[0] = figures[0].max(messages_a_second(rust, exchange, 2));
            figures[1] = figures[1].max(messages_a_second(rattle, exchange, 2));
            figures[2] = figures[2].max(messages_a_second(rattle, exchange, 16));
        }
    }
    println!("messages a second, all of them accepted; best of {ROUNDS} rounds of {TIMES} exchanges");
    println!(
        "{:35}{:>12}{:>12}{:>15}{:>12}{:>10}",
        "", "Rust", "Rattle", "Rattle / Rust", "16 keys", "16 / 2"
    );
    for ([rust, rattle, many], exchange) in best.into_iter().zip(&all) {
        let (ratio, keys) = (rattle / rust, many / rattle);
        println!(
            "{:35}{rust:>12.0}{rattle:>12.0}{ratio:>15.2}{many:>12.0}{keys:>10.2}",
            exchange.name
        );
    }
    let times = (0..ROUNDS).map(|_| nanoseconds_a_power_up());
    println!(
        "nanoseconds of the proved tag's power-up alone: {:.0}",
        times.fold(f64::INFINITY, f64::min)
    );
    Ok(())
}

fn nanoseconds_a_power_up() -> f64 {
    let mut tag = kept(&tag_sheet(2));
    let start = Instant::now();
    for _ in 0..TIMES {
        power_up(black_box(&mut tag));
    }
    start.elapsed().as_secs_f64() * 1e9 / TIMES as f64
}

/// Whether both accept the exchange, reply the same and leave the same in the areas. The second message has no reply,
/// so the room then holds that of the first.
fn alike(exchange: &Exchange) -> bool {
    let (mut one, mut other) = (Bench::new(2), Bench::new(2));
    let accepted = [rust(exchange, &mut one, 1), rattle(exchange, &mut other, 1)];
    let memories = [&one.memory, &other.memory].map(|memory| (&memory.identity, &memory.user));
    accepted == [1, 1] && one.room == other.room && memories[0] == memories[1]
}

fn messages_a_second(play: Play, exchange: &Exchange, keys: u8) -> f64 {
    let mut bench = Bench::new(keys);
    let start = Instant::now();
    let accepted = play(black_box(exchange), &mut bench, TIMES);
    let passed = start.elapsed();
    assert_eq!(accepted, TIMES, "{}: each exchange is accepted", exchange.name);
    black_box(bench.room);
    (exchange.messages() * TIMES) as f64 / passed.as_secs_f64()
}
