// What pin_time does, with Rust's own atomics and no rule: `bench/pins.py` builds it and times it beside pin_time.
//
//     atomics pin|read|write|fill|round|visit one|same|other ROUNDS
//
// The words lie as in the table of pin_time: one that isn't used, two of cells, two of slots, two of lanes, and two
// frames of 64 voxels. It prints the same count as pin_time.
use std::env;
use std::hint::black_box;
use std::sync::atomic::{AtomicU64, Ordering::SeqCst};
use std::thread;

type Work = fn(&[AtomicU64], usize, u64) -> u64;

const VOXELS: usize = 64;
const SLOT_WORDS: usize = 3;
const LANE_WORDS: usize = 5;
const FRAMES: usize = 7;
const LOADING: u64 = 1 << 25;
const LIVE: u64 = 1 << 26;
const VISITS: u64 = 16;

fn cell_word(words: &[AtomicU64], cell: usize) -> &AtomicU64 {
    &words[1 + cell]
}

fn frame(words: &[AtomicU64], slot: usize) -> &[AtomicU64] {
    &words[FRAMES + slot * VOXELS..][..VOXELS]
}

/// A cell's count goes up and down.
fn pin(words: &[AtomicU64], cell: usize, rounds: u64) -> u64 {
    for _ in 0..rounds {
        black_box(cell_word(words, cell).fetch_add(1, SeqCst));
        black_box(cell_word(words, cell).fetch_sub(1, SeqCst));
    }
    rounds
}

fn read(words: &[AtomicU64], cell: usize, rounds: u64) -> u64 {
    let frame = frame(words, cell);
    frame.iter().for_each(|word| word.store(1, SeqCst));
    (0..rounds).map(|round| frame[round as usize % VOXELS].load(SeqCst)).sum()
}

fn write(words: &[AtomicU64], cell: usize, rounds: u64) -> u64 {
    let frame = frame(words, cell);
    for round in 0..rounds {
        frame[round as usize % VOXELS].store(1, SeqCst);
    }
    rounds
}

/// A word goes from one number to another, tried until it is done.
fn swap(word: &AtomicU64, old: u64, new: u64) {
    while word.compare_exchange(old, new, SeqCst, SeqCst).is_err() {}
}

/// Takes the first slot that is free.
fn take_slot(words: &[AtomicU64]) -> usize {
    let taken = |slot: &usize| words[SLOT_WORDS + slot].compare_exchange(0, 1, SeqCst, SeqCst).is_ok();
    (0..2).find(taken).expect("a slot for each thread")
}

fn fill(words: &[AtomicU64], cell: usize, rounds: u64) -> u64 {
    let (word, lane) = (cell_word(words, cell), &words[LANE_WORDS + cell]);
    swap(word, 0, LOADING);
    let slot = take_slot(words);
    swap(lane, 0, 1);
    for _ in 0..rounds {
        frame(words, slot).iter().for_each(|word| word.store(1, SeqCst));
    }
    lane.store(0, SeqCst);
    words[SLOT_WORDS + slot].store(0, SeqCst);
    word.fetch_sub(LOADING, SeqCst);
    rounds * VOXELS as u64
}

/// A cell is loaded and turned out, by the same steps on the same words.
fn round(words: &[AtomicU64], cell: usize, rounds: u64) -> u64 {
    let (word, lane) = (cell_word(words, cell), &words[LANE_WORDS + cell]);
    for _ in 0..rounds {
        swap(word, 0, LOADING);
        let slot = take_slot(words);
        swap(lane, 0, 1);
        frame(words, slot).iter().for_each(|word| word.store(1, SeqCst));
        lane.store(0, SeqCst);
        word.fetch_add(LOADING + 1, SeqCst);
        word.fetch_sub(1, SeqCst);
        swap(word, LIVE, LIVE + LOADING);
        word.fetch_sub(LIVE + LOADING, SeqCst);
        words[SLOT_WORDS + slot].store(0, SeqCst);
    }
    rounds
}

/// A cell is visited: its count goes up and down, whatever its state.
fn visit(words: &[AtomicU64], cell: usize, rounds: u64) -> u64 {
    pin(words, cell, rounds * VISITS)
}

fn main() {
    let args: Vec<String> = env::args().skip(1).collect();
    let hands = args[1].as_str();
    let (work, beside): (Work, Work) = match (args[0].as_str(), hands) {
        ("pin", _) => (pin, pin),
        ("read", _) => (read, read),
        ("write", _) => (write, write),
        ("fill", "same") => (fill, visit),
        ("fill", _) => (fill, fill),
        ("round", "same") => (round, visit),
        ("round", _) => (round, round),
        ("visit", _) => (visit, visit),
        (other, _) => panic!("{other}"),
    };
    let rounds: u64 = args[2].parse().expect("a number of rounds");
    let words: Vec<AtomicU64> = (0..FRAMES + 2 * VOXELS).map(|_| AtomicU64::new(0)).collect();
    let done = match hands {
        "one" => work(&words, 0, rounds),
        hands => thread::scope(|scope| {
            let second = scope.spawn(|| beside(&words, usize::from(hands == "other"), rounds));
            work(&words, 0, rounds) + second.join().expect("the second thread")
        }),
    };
    println!("{done}");
}
