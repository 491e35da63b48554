//! Threads that only compute, started as a query starts its pieces: `threads PIECES TIMES STACK_KIB START TURNS` prints of each
//! round how many microseconds it took.
//!
//! START is `tree` (halves down to four, whose threads one of them starts), or `flat` (one thread starts all). After each 16,384
//! of 8 million steps a thread lets others go first, where TURNS is 1.

use std::env::args;
use std::hint::black_box;
use std::thread::{Builder, scope, yield_now};
use std::time::Instant;

const STEPS: usize = 8_000_000;
const TURN: usize = 16_384;

#[derive(Clone, Copy)]
struct Kind {
    pieces: usize,
    stack: usize,
    flat: bool,
    turns: bool,
}

/// Computes a piece's share of the steps, each of which waits for the one before.
fn compute(kind: Kind, place: usize) -> u64 {
    let share = |place: usize| STEPS * place / kind.pieces;
    let (mut at, end) = (share(place), share(place + 1));
    let mut state = 1 + place as u64;
    while at < end {
        let next = end.min(at + TURN);
        for _ in at..next {
            for _ in 0..4 {
                state = (state ^ state >> 29).wrapping_mul(6_364_136_223_846_793_005);
            }
        }
        at = next;
        if kind.turns && at < end {
            yield_now();
        }
    }
    state
}

/// Computes so many pieces from one on, the last half of them, or the last one, in a thread of its own.
fn compute_all(kind: Kind, from: usize, count: usize) -> u64 {
    if count == 1 {
        return compute(kind, from);
    }
    let back = if kind.flat || count <= 4 { 1 } else { count / 2 };
    scope(|threads| {
        let late = Builder::new()
            .stack_size(kind.stack)
            .spawn_scoped(threads, move || compute_all(kind, from + count - back, back))
            .expect("a thread");
        let early = compute_all(kind, from, count - back);
        early ^ late.join().expect("a piece")
    })
}

fn main() {
    let words: Vec<String> = args().skip(1).collect();
    let [pieces, times, stack, start, turns] = &words[..] else { panic!("PIECES TIMES STACK_KIB START TURNS") };
    let kind = Kind {
        pieces: pieces.parse().expect("pieces"),
        stack: 1024 * stack.parse::<usize>().expect("a stack"),
        flat: start == "flat",
        turns: turns == "1",
    };
    for _ in 0..times.parse::<usize>().expect("times") {
        let begin = Instant::now();
        black_box(compute_all(kind, 0, kind.pieces));
        println!("{}", begin.elapsed().as_micros());
    }
}
