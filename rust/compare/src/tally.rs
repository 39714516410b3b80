//! Counts the cases, prints the differences, and watches that every case comes to an end.

use refal0_apart::corpus::{Lending, escape};
use refal0_apart::machine::Rooms;
use std::sync::atomic::{AtomicU64, Ordering};
use std::thread;
use std::time::Duration;

const PRINTED: u64 = 10;
const PATIENCE: Duration = Duration::from_secs(60);

static CASES: AtomicU64 = AtomicU64::new(0);

#[derive(Default)]
pub struct Tally {
    pub passed: u64,
    pub failed: u64,
}

/// What a case was about, printed if it fails.
#[derive(Clone, Copy, Default)]
pub struct Subject<'c> {
    pub origin: &'c str,
    pub table: Option<&'c [u8]>,
    pub lending: Option<&'c Lending>,
    pub code: Option<&'c [u32]>,
}

impl Tally {
    pub fn count(&self) -> u64 {
        self.passed + self.failed
    }

    /// Counts a case; a failure is printed with all that is needed to see it again.
    pub fn note(&mut self, subject: Subject, result: Result<(), String>) {
        CASES.fetch_add(1, Ordering::Relaxed);
        let Err(difference) = result else {
            self.passed += 1;
            return;
        };
        self.failed += 1;
        if self.failed <= PRINTED {
            subject.print(self.count());
            println!("{difference}\n");
        }
    }
}

impl Subject<'_> {
    /// Prints a case in the lines of a corpus file, where it can be run again.
    fn print(&self, number: u64) {
        println!("# DIFFERENCE in case {number}, {}", self.origin);
        if let Some(table) = self.table {
            println!("escaped: {}", escape(table));
        }
        if let Some(code) = self.code {
            let words: Vec<String> = code.iter().map(u32::to_string).collect();
            println!("code: {}", words.join(" "));
        }
        if let Some(Lending { start, text, allowance, rooms }) = self.lending {
            let Rooms { stack_in, stack_out, record, .. } = rooms;
            println!("with: start={start} allowance={allowance} in={stack_in} out={stack_out} record={record}");
            println!("text: {}", escape(text));
        }
    }
}

/// Ends the program if no case comes to an end for a long time.
pub fn watch(origin: String) {
    thread::spawn(move || {
        let mut last = CASES.load(Ordering::Relaxed);
        loop {
            thread::sleep(PATIENCE);
            let now = CASES.load(Ordering::Relaxed);
            if now == last {
                println!("case {now} of {origin} does not come to an end\n{now} passed, 1 failed");
                std::process::exit(1);
            }
            last = now;
        }
    });
}
