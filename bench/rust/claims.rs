// The same jobs as `claim_trials` times, as one would share them among threads with Rust's atomics: a word for the next job, a word for how
// many are done, and a slot for each job, which its outcome goes into.
use std::cell::UnsafeCell;
use std::sync::atomic::{AtomicU64, Ordering::SeqCst};
use std::time::Instant;

struct Mixed {
    seed: u64,
    steps: u32,
}

impl Mixed {
    fn work(self) -> Result<u64, ()> {
        let mut mixed = self.seed;
        for _ in 0..self.steps {
            mixed = (mixed ^ (mixed >> 29)).wrapping_mul(6_364_136_223_846_793_005);
        }
        Ok(mixed)
    }
}

enum Slot {
    Ready(Mixed),
    Taken,
    Done(Result<u64, ()>),
}

struct Board {
    done: AtomicU64,
    next: AtomicU64,
    slots: Vec<UnsafeCell<Slot>>,
}

unsafe impl Sync for Board {}

impl Board {
    fn work(&self) {
        loop {
            let number = self.next.fetch_add(1, SeqCst) as usize;
            if number >= self.slots.len() {
                return;
            }
            let slot = self.slots[number].get();
            let Slot::Ready(job) = (unsafe { slot.replace(Slot::Taken) }) else { unreachable!() };
            let outcome = job.work();
            unsafe { slot.write(Slot::Done(outcome)) };
            self.done.fetch_add(1, SeqCst);
        }
    }
}

fn claim_all(jobs: Vec<Mixed>, threads: u32) -> Result<Vec<u64>, ()> {
    let slots = jobs.into_iter().map(|job| UnsafeCell::new(Slot::Ready(job))).collect();
    let board = Board { done: AtomicU64::new(0), next: AtomicU64::new(0), slots };
    std::thread::scope(|scope| {
        for _ in 1..threads {
            scope.spawn(|| board.work());
        }
        board.work();
    });
    let outcome = |slot: UnsafeCell<Slot>| match slot.into_inner() {
        Slot::Done(outcome) => outcome,
        _ => unreachable!(),
    };
    board.slots.into_iter().map(outcome).collect()
}

fn main() {
    for line in std::io::stdin().lines() {
        let line = line.unwrap();
        let words: Vec<u32> = line.split(' ').skip(1).map(|word| word.parse().unwrap()).collect();
        let (threads, count, steps) = (words[0], words[1], words[2]);
        let jobs = (0..count).map(|seed| Mixed { seed: u64::from(seed), steps }).collect();
        let start = Instant::now();
        let outputs = claim_all(jobs, threads).unwrap();
        let micros = start.elapsed().as_micros();
        let sum = outputs.iter().fold(0u64, |sum, output| sum.wrapping_add(*output));
        println!("{micros} {sum}");
    }
}
