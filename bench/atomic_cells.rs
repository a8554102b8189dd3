// What cell_time does with the cells that threads share, with Rust's own atomics and no rule: `bench/cells.py` builds it and times it
// beside cell_time.
//
//     atomic_cells cells hit|shared|load|put one|two|four SLOTS ROUNDS
//
// There are the words of 4096 cells, one of each slot, and a frame of 64 voxels for each slot. A cell that leaves is the one of the next
// slot of its thread, so that nobody asks which; no store is asked, and `put` reads the frame in place of a put. It prints the same count
// as cell_time.
use std::env;
use std::hint::black_box;
use std::sync::atomic::{AtomicU64, Ordering::SeqCst};
use std::thread;

const VOXELS: usize = 64;
const CELLS: usize = 1024;
const LOADING: u64 = 1 << 25;
const LIVE: u64 = 1 << 26;

struct Cells {
    cells: Vec<AtomicU64>,
    slots: Vec<AtomicU64>,
    voxels: Vec<AtomicU64>,
}

fn words(count: usize) -> Vec<AtomicU64> {
    (0..count).map(|_| AtomicU64::new(0)).collect()
}

impl Cells {
    fn frame(&self, slot: usize) -> &[AtomicU64] {
        &self.voxels[slot * VOXELS..][..VOXELS]
    }

    /// A live cell is pinned, read and unpinned.
    fn hit(&self, cell: usize, slot: usize) {
        self.cells[cell].fetch_add(1, SeqCst);
        black_box(self.frame(slot)[0].load(SeqCst));
        self.cells[cell].fetch_sub(1, SeqCst);
    }

    /// A cell leaves its slot.
    fn leave(&self, cell: usize, slot: usize, put: bool) {
        while self.cells[cell].compare_exchange(LIVE, LIVE + LOADING, SeqCst, SeqCst).is_err() {}
        if put {
            black_box(self.frame(slot).iter().map(|voxel| voxel.load(SeqCst)).sum::<u64>());
        }
        self.cells[cell].fetch_sub(LIVE + LOADING, SeqCst);
        self.slots[slot].store(0, SeqCst);
    }

    /// An absent cell is claimed, its frame filled, and it is live then.
    fn load(&self, cell: usize, slot: usize) {
        while self.cells[cell].compare_exchange(0, LOADING, SeqCst, SeqCst).is_err() {}
        while self.slots[slot].compare_exchange(0, 1, SeqCst, SeqCst).is_err() {}
        self.frame(slot).iter().for_each(|voxel| voxel.store(0, SeqCst));
        self.cells[cell].fetch_add(LOADING, SeqCst);
    }

    /// The rounds of a thread, which has the slots from this one on to itself.
    fn work(&self, what: &str, hand: usize, slots: usize, rounds: usize) -> usize {
        let first = hand * slots;
        for round in 0..rounds {
            let slot = first + round % slots;
            let cell = hand * CELLS + round % CELLS;
            match what {
                "hit" => self.hit(hand * CELLS, first),
                "shared" => self.hit(0, 0),
                _ => {
                    if round >= slots {
                        self.leave(hand * CELLS + (round - slots) % CELLS, slot, what == "put");
                    }
                    self.load(cell, slot);
                    self.hit(cell, slot);
                }
            }
        }
        rounds
    }
}

fn main() {
    let args: Vec<String> = env::args().skip(2).collect();
    let what = args[0].as_str();
    let hands = match args[1].as_str() {
        "one" => 1,
        "two" => 2,
        _ => 4,
    };
    let slots: usize = args[2].parse().expect("a number of slots");
    let rounds: usize = args[3].parse().expect("a number of rounds");
    let cells = Cells { cells: words(4 * CELLS), slots: words(slots), voxels: words(slots * VOXELS) };
    let done: usize = thread::scope(|scope| {
        let work = |hand| {
            let cells = &cells;
            scope.spawn(move || cells.work(what, hand, slots / hands, rounds))
        };
        let threads: Vec<_> = (0..hands).map(work).collect();
        threads.into_iter().map(|thread| thread.join().expect("a thread")).sum()
    });
    println!("{done}");
}
