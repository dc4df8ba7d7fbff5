// The job of `turnstile_tests time THREADS TURNS` with a Mutex: so many threads, each of which adds so many entries to one
// journal and looks whether the lengths that it is told rise. Prints both numbers, the entries and the nanoseconds of all.
use std::env;
use std::sync::Mutex;
use std::thread;
use std::time::Instant;

#[derive(Clone, Copy)]
struct Entry {
    session: u32,
    seq: u32,
}

struct Board {
    journal: Vec<Entry>,
    most: usize,
}

impl Board {
    fn add(&mut self, entry: Entry) {
        if self.journal.len() < self.most {
            self.journal.push(entry);
        }
    }
}

fn session(board: &Mutex<Board>, session: u32, turns: u32) -> bool {
    let mut last = 0;
    let mut rises = true;
    for seq in 0..turns {
        let note = {
            let mut board = board.lock().unwrap();
            board.add(Entry { session, seq });
            board.journal.len() as u64
        };
        rises = rises && note > last;
        last = note;
    }
    rises
}

fn main() {
    let words: Vec<u32> = env::args().skip(1).map(|word| word.parse().unwrap()).collect();
    let (threads, turns) = (words[0], words[1]);
    let start = Instant::now();
    let most = threads as usize * turns as usize;
    let board = Mutex::new(Board { journal: Vec::with_capacity(most), most });
    let rises = thread::scope(|scope| {
        let running: Vec<_> = (1..=threads)
            .map(|number| {
                let board = &board;
                scope.spawn(move || session(board, number, turns))
            })
            .collect();
        running.into_iter().all(|it| it.join().unwrap())
    });
    let nanos = start.elapsed().as_nanos();
    let journal = board.into_inner().unwrap().journal;
    assert!(rises && journal.iter().all(|entry| entry.seq < turns && entry.session > 0));
    println!("{threads} {turns} {} {nanos}", journal.len());
}
