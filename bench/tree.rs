//! The calls of `expiry_bench` on a tree of pairs: a `BTreeSet` of the moment at which an inode is due and its number, and a flag for each
//! inode that waits. It prints the same lines, with the same sums.

use std::collections::BTreeSet;
use std::time::Instant;

const SPAN: u64 = 30_000;
const TURNS: u32 = 1 << 18;
const ROUNDS: u32 = 10;

/// What was taken, and the number from which the next one is drawn.
struct Tally {
    pairs: u64,
    sum: u64,
    seed: u64,
}

impl Tally {
    fn draw(&mut self) -> u64 {
        self.seed = self.seed.wrapping_mul(6_364_136_223_846_793_005).wrapping_add(1_442_695_040_888_963_407);
        (self.seed >> 33) % SPAN + 1
    }

    fn count(&mut self, (due, inode): (u64, u32)) {
        self.pairs += 1;
        self.sum = self.sum.wrapping_mul(31).wrapping_add(due).wrapping_add(u64::from(inode));
    }
}

/// A waiting list.
struct Tree {
    pairs: BTreeSet<(u64, u32)>,
    waits: Vec<bool>,
}

impl Tree {
    fn make(inodes: u32) -> Tree {
        Tree { pairs: BTreeSet::new(), waits: vec![false; inodes as usize] }
    }

    fn put(&mut self, inode: u32, due: u64) -> bool {
        if std::mem::replace(&mut self.waits[inode as usize], true) {
            return false;
        }
        self.pairs.insert((due, inode))
    }

    fn next(&mut self, to: u64) -> Option<(u64, u32)> {
        if self.pairs.first()?.0 > to {
            return None;
        }
        self.first()
    }

    fn first(&mut self) -> Option<(u64, u32)> {
        let pair = self.pairs.pop_first()?;
        self.waits[pair.1 as usize] = false;
        Some(pair)
    }
}

/// The nanoseconds of all turns, those of the takes at the end, how many pairs either took, and the sum of what was taken.
fn time_once(inodes: u32) -> (u64, u64, u64, u64, u64) {
    let mut tally = Tally { pairs: 0, sum: 0, seed: 1 };
    let mut tree = Tree::make(inodes);
    for inode in 0..inodes {
        let due = tally.draw();
        tree.put(inode, due);
    }
    let step = SPAN / u64::from(inodes);
    let mut now = 0;
    let begin = Instant::now();
    for _turn in 0..TURNS {
        now += step;
        while let Some(pair) = tree.next(now) {
            tally.count(pair);
            let due = now + tally.draw();
            tree.put(pair.1, due);
        }
    }
    let turns = begin.elapsed().as_nanos() as u64;
    let pairs = tally.pairs;
    let then = Instant::now();
    while let Some(pair) = tree.first() {
        tally.count(pair);
    }
    let takes = then.elapsed().as_nanos() as u64;
    (turns, takes, pairs, tally.pairs - pairs, tally.sum)
}

fn main() {
    for inodes in [64, 4096] {
        let (mut turns, mut takes, pairs, rest, sum) = time_once(inodes);
        for _round in 1..ROUNDS {
            let times = time_once(inodes);
            turns = turns.min(times.0);
            takes = takes.min(times.1);
        }
        println!("{inodes} {pairs} {turns} {rest} {takes} {sum}");
    }
}
