//! How long our library, the original's text and a plain sorted list take for the same work, one line for each: a name, what was
//! done, and a number: nanoseconds for one call, or megabytes in a second.
use crate::base::Rng;
use crate::cache::Cache;
use crate::key_types::LookupKey;
use crate::rules::{Item, EDITION_MAX};
use crate::table_reader::Table;
use crate::types::{share, LdbIterator};
use crate::{ours, text};
use std::hint::black_box;
use std::rc::Rc;
use std::time::Instant;

const ENTRIES: usize = 100_000;
const ASKED: usize = 200_000;
const BLOCK: usize = 4096;
const INTERVAL: usize = 16;
const BITS: u32 = 10;
const ROOM: usize = 16 << 20;
/// Each measurement is the best of so many.
const RUNS: usize = 5;

/// A word of 16 bytes; those of even numbers are in the table, those of odd ones stand between them.
fn word(n: usize) -> Vec<u8> {
    format!("word{n:012}").into_bytes()
}

fn items() -> Vec<Item> {
    let mut r = Rng(7);
    (0..ENTRIES).map(|i| Item { word: word(2 * i), edition: 1 + i as u64, kind: 1, value: r.bytes(64) }).collect()
}

fn best(mut f: impl FnMut()) -> f64 {
    (0..RUNS)
        .map(|_| {
            let start = Instant::now();
            f();
            start.elapsed().as_secs_f64()
        })
        .fold(f64::MAX, f64::min)
}

fn each(who: &str, what: &str, n: usize, f: impl FnMut()) {
    println!("{who}\t{what}\t{:.0}\tns", best(f) * 1e9 / n as f64);
}

fn rate(who: &str, what: &str, bytes: usize, f: impl FnMut()) {
    println!("{who}\t{what}\t{:.1}\tMB/s", bytes as f64 / 1e6 / best(f));
}

/// Words to ask for, in no order, and whether each is of the table; the others stand between its words.
type Asked = Vec<(Vec<u8>, bool)>;

fn asked(r: &mut Rng, mut there: impl FnMut(usize) -> bool) -> Asked {
    (0..ASKED)
        .map(|i| {
            let t = there(i);
            (word(2 * r.within(0, ENTRIES - 1) + !t as usize), t)
        })
        .collect()
}

/// Lookups that all hit, that all miss, and that do so by turns.
fn lookups(who: &str, kinds: &[(&str, Asked)], mut finds: impl FnMut(&[u8]) -> bool) {
    for (what, words) in kinds {
        each(who, what, words.len(), || {
            for (w, there) in words {
                assert_eq!(finds(w), *there);
            }
        });
    }
}

pub fn run() {
    let items = items();
    let mut r = Rng(8);
    let kinds = [
        ("lookup, there", asked(&mut r, |_| true)),
        ("lookup, absent", asked(&mut r, |_| false)),
        ("lookup, half there", asked(&mut r, |i| i % 2 == 0)),
    ];
    let absent: Vec<&[u8]> = kinds[1].1.iter().map(|(w, _)| &w[..]).collect();
    let top = EDITION_MAX;
    let mut key = [0; 1032];

    let mut runs = ours::Runs::new(ROOM);
    let table = ours::table(BLOCK, INTERVAL, Some(BITS), &items, &mut runs).unwrap();
    eprintln!("{} entries, a table of {} bytes, blocks of {BLOCK}, restarts every {INTERVAL}, {BITS} bits a key", items.len(), table.len());
    rate("ours", "building", table.len(), || {
        black_box(ours::table(BLOCK, INTERVAL, Some(BITS), &items, &mut runs).unwrap());
    });
    rate("ours", "full check", table.len(), || assert_eq!(ours::check(black_box(&table)), 0));
    lookups("ours", &kinds, |w| match ours::lookup_in(&table, w, top, &mut key).answer {
        0 => true,
        100 => false,
        n => panic!("a lookup answers {n}"),
    });
    each("ours", "seek", absent.len(), || {
        for w in &absent {
            black_box(ours::seek_in(&table, w, top, &mut key));
        }
    });

    let opt = text::options(BLOCK, INTERVAL, Some(BITS));
    let (theirs, done) = text::table(&opt, &items);
    done.unwrap();
    rate("text", "building", theirs.len(), || {
        assert!(black_box(text::table(&opt, &items)).1.is_ok());
    });
    // a cache that holds every block
    let t = Table::new(opt.clone(), share(Cache::new(10_000)), Rc::new(Box::new(theirs.clone())), theirs.len()).unwrap();
    lookups("text", &kinds, |w| {
        let k = LookupKey::new(w, top);
        t.get(k.internal_key()).unwrap().is_some_and(|(key, _)| key[..key.len() - 8] == w[..])
    });
    let mut it = t.iter();
    each("text", "seek", absent.len(), || {
        for w in &absent {
            it.seek(LookupKey::new(w, top).internal_key());
            black_box(it.valid());
        }
    });

    let list: Vec<(Vec<u8>, u64, Vec<u8>)> = items.iter().map(|i| (i.word.clone(), i.edition, i.value.clone())).collect();
    lookups("list", &kinds, |w| {
        let at = list.partition_point(|(x, _, _)| &x[..] < w);
        list.get(at).is_some_and(|(x, e, v)| x == w && *e <= top && black_box(v).len() == 64)
    });
    each("list", "seek", absent.len(), || {
        for w in &absent {
            black_box(list.partition_point(|(x, _, _)| &x[..] < *w));
        }
    });
}
