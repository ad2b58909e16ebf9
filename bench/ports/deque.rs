//! The same measure over a `VecDeque`: a claim marks the first messages that satisfy the predicate and copies them, consume takes them out.
use std::collections::VecDeque;
use std::hint::black_box;
use std::time::Instant;

const MESSAGES: u64 = 10_000;

#[derive(Clone)]
struct Msg {
    _actor: u32,
    _place: u32,
    _port: u32,
    value: u64,
    _causes: Vec<u32>,
}

fn post(port: &mut VecDeque<Msg>, value: u64) {
    port.push_back(Msg { _actor: 0, _place: value as u32, _port: 2, value, _causes: Vec::new() });
}

fn post_all(port: &mut VecDeque<Msg>, from: u64, to: u64) {
    for value in from..to {
        post(port, value);
    }
}

fn claim_and_consume(port: &mut VecDeque<Msg>, count: usize) {
    let copies: Vec<Msg> = port.iter().filter(|message| message.value >= 9_000).take(count).cloned().collect();
    black_box(&copies);
    let mut left = copies.len();
    port.retain(|message| {
        let taken = left > 0 && message.value >= 9_000;
        left -= usize::from(taken);
        !taken
    });
}

fn report(count: usize, rounds: u32) {
    let mut port = VecDeque::new();
    post_all(&mut port, 0, MESSAGES);
    let start = Instant::now();
    claim_and_consume(&mut port, count);
    let first = start.elapsed().as_nanos();
    post_all(&mut port, MESSAGES - count as u64, MESSAGES);
    let mut later = 0;
    for _ in 0..rounds {
        let start = Instant::now();
        claim_and_consume(&mut port, count);
        later += start.elapsed().as_nanos();
        post_all(&mut port, MESSAGES - count as u64, MESSAGES);
    }
    println!("{count} of 10000: first {first} ns, then {} ns", later / u128::from(rounds));
}

fn main() {
    report(1, 2000);
    report(100, 1000);
    report(1000, 200);
}
