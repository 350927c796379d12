//! The sections, and running them on several cores.

use crate::calls::Library;
use crate::found::Found;
use crate::{builds, grids, owners, refusals, samples};
use std::ops::Range;
use std::sync::atomic::{AtomicU64, Ordering};
use std::sync::Mutex;

/// Cases with numbers from 0. Each depends on the seed and its number alone.
pub struct Section {
    pub name: &'static str,
    /// Cases of `part`.
    pub part: u64,
    /// Cases of `all`.
    pub all: u64,
    /// Cases that a thread takes at once.
    chunk: u64,
    run: fn(&Library, u64, Range<u64>, &mut Found),
}

pub const SECTIONS: [Section; 5] = [
    Section { name: "builds", part: 3000, all: 48_000, chunk: 20, run: builds::run },
    Section { name: "refusals", part: 8000, all: 240_000, chunk: 100, run: refusals::run },
    Section { name: "grids", part: 8000, all: 240_000, chunk: grids::OF_ONE_PLAN, run: grids::run },
    Section {
        name: "samples",
        part: samples::TRIPLES,
        all: samples::TRIPLES,
        chunk: 1 << 16,
        run: samples::run,
    },
    Section { name: "owners", part: 216, all: owners::PLANS, chunk: 4, run: owners::run },
];

pub fn named(name: &str) -> Option<&'static Section> {
    SECTIONS.iter().find(|section| section.name == name)
}

impl Section {
    /// These cases, on this thread.
    pub fn cases(&self, library: &Library, seed: u64, cases: Range<u64>) -> Found {
        let mut found = Found::default();
        (self.run)(library, seed, cases, &mut found);
        found
    }

    /// The first `cases` cases, on all cores; what is found does not hang on their number. `progress` is told the number
    /// of cases done.
    pub fn first(&self, library: &Library, seed: u64, cases: u64, progress: impl Fn(u64) + Sync) -> Found {
        let (next, done) = (AtomicU64::new(0), AtomicU64::new(0));
        let whole = Mutex::new(Found::default());
        let work = || loop {
            let start = next.fetch_add(self.chunk, Ordering::Relaxed);
            if start >= cases {
                return;
            }
            let chunk = start..cases.min(start + self.chunk);
            let count = chunk.end - chunk.start;
            let found = self.cases(library, seed, chunk);
            whole.lock().expect("no thread panics").merge(found);
            progress(done.fetch_add(count, Ordering::Relaxed) + count);
        };
        let threads = std::thread::available_parallelism().map_or(1, |number| number.get());
        std::thread::scope(|scope| (0..threads).for_each(|_| drop(scope.spawn(work))));
        whole.into_inner().expect("no thread panics")
    }
}
