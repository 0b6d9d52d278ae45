//! What every part uses: numbers at random, strings of a small alphabet, panics caught, counts.
use std::cell::{Cell, RefCell};
use std::collections::BTreeMap;
use std::sync::atomic::{AtomicU64, Ordering};

pub struct Rng(pub u64);

impl Rng {
    pub fn next(&mut self) -> u64 {
        self.0 = self.0.wrapping_add(0x9e3779b97f4a7c15);
        let mut z = self.0;
        z = (z ^ (z >> 30)).wrapping_mul(0xbf58476d1ce4e5b9);
        z = (z ^ (z >> 27)).wrapping_mul(0x94d049bb133111eb);
        z ^ (z >> 31)
    }
    /// From a to b, both included.
    pub fn within(&mut self, a: usize, b: usize) -> usize {
        a + (self.next() % (b - a + 1) as u64) as usize
    }
    pub fn one_in(&mut self, n: usize) -> bool {
        self.within(1, n) == 1
    }
    pub fn of<T: Copy>(&mut self, all: &[T]) -> T {
        all[self.within(0, all.len() - 1)]
    }
    pub fn bytes(&mut self, n: usize) -> Vec<u8> {
        (0..n).map(|_| self.next() as u8).collect()
    }
}

pub const LETTERS: [u8; 6] = [0x00, 0x01, 0x61, 0x62, 0xfe, 0xff];

/// All strings over the letters, up to a length, shorter ones first.
pub fn strings(letters: &[u8], longest: usize) -> Vec<Vec<u8>> {
    let mut all = vec![vec![]];
    let mut from = 0;
    for _ in 0..longest {
        let to = all.len();
        for i in from..to {
            for &c in letters {
                let mut s = all[i].clone();
                s.push(c);
                all.push(s);
            }
        }
        from = to;
    }
    all
}

// ---- panics

thread_local! {
    static PLACE: RefCell<String> = RefCell::new(String::new());
    static CATCHING: Cell<bool> = Cell::new(false);
}

/// Panics are not written where they are caught.
pub fn silence() {
    std::panic::set_hook(Box::new(|info| {
        if !CATCHING.get() {
            eprintln!("compare: {info}");
        }
        let place = info.location().map_or("?".into(), |l| l.file().rsplit('/').next().unwrap_or("?").to_string());
        PLACE.with(|p| *p.borrow_mut() = place);
    }));
}

/// What a call gives, or the file in which it panicked.
pub fn caught<T>(f: impl FnOnce() -> T) -> Result<T, String> {
    let before = CATCHING.replace(true);
    let result = std::panic::catch_unwind(std::panic::AssertUnwindSafe(f));
    CATCHING.set(before);
    result.map_err(|_| PLACE.with(|p| p.borrow().clone()))
}

// ---- counts

static FAULTS: AtomicU64 = AtomicU64::new(0);

/// A difference that no row of docs/DIFFERENCES.md lists.
pub fn fault(what: impl FnOnce() -> String) {
    if FAULTS.fetch_add(1, Ordering::SeqCst) < 20 {
        eprintln!("compare: {}", what());
    }
}

pub fn faults() -> u64 {
    FAULTS.load(Ordering::SeqCst)
}

pub fn hold(holds: bool, what: impl FnOnce() -> String) {
    if !holds {
        fault(what);
    }
}

#[derive(Default)]
pub struct Tally {
    pub same: BTreeMap<&'static str, u64>,
    pub listed: BTreeMap<&'static str, u64>,
}

impl Tally {
    pub fn same(&mut self, what: &'static str, n: usize) {
        *self.same.entry(what).or_default() += n as u64;
    }
    /// A difference that is listed.
    pub fn listed(&mut self, rule: &'static str) {
        *self.listed.entry(rule).or_default() += 1;
    }
    pub fn join(&mut self, other: Tally) {
        for (k, n) in other.same {
            *self.same.entry(k).or_default() += n;
        }
        for (k, n) in other.listed {
            *self.listed.entry(k).or_default() += n;
        }
    }
}
