//! All parts, in two threads.
use crate::base::{faults, hold, Rng, Tally};
use crate::{listed, ours, pieces, tables};

const TABLES: u64 = 12_000;

fn worker(part: usize, parts: usize) -> Tally {
    let mut t = Tally::default();
    pieces::keys(part, parts, &mut t);
    pieces::filters(part, parts, &mut t);
    pieces::filter_blocks(part, parts, &mut t);
    pieces::blocks(part, parts, &mut t);
    let mut runs = ours::Runs::new(4 << 20);
    for i in (part as u64..TABLES).step_by(parts) {
        tables::one(&mut Rng(0x5a1e * (i + 1)), &mut runs, &mut t);
    }
    if part == 0 {
        listed::all(&mut runs, &mut t);
    } else {
        let first = tables::small(&mut ours::Runs::new(4 << 10), &mut t);
        for (rule, input) in SMALLEST {
            let found = first.iter().find(|f| f.0 == rule).map(|f| f.1.as_str());
            hold(found == Some(input), || format!("the smallest input of '{rule}' is {found:?}"));
        }
    }
    t
}

/// The smallest tables that docs/DIFFERENCES.md gives for what depends on the additions alone.
const SMALLEST: [(&str, &str); 6] = [
    ("index key of the last block", "00:0"),
    ("index key not shorter", "00:0 01:0"),
    ("index key of a deletion", "00:1d 00:0"),
    ("index key with the next key's word", "00:0 0000:0"),
    ("table of the text that answers 11", "00:0 0000:0"),
    ("panic of the text while building", "00:0 0000:1 0000:0"),
];

pub fn run() -> bool {
    let workers: Vec<_> = (0..2).map(|n| std::thread::spawn(move || worker(n, 2))).collect();
    let mut t = Tally::default();
    for w in workers {
        t.join(w.join().expect("a worker ended early"));
    }
    for group in ["keys", "filters", "blocks", "tables", "reads", "differences"] {
        let counts = |all: &std::collections::BTreeMap<&str, u64>, group: &str| {
            all.iter()
                .filter_map(|(what, n)| what.strip_prefix(group).map(|w| format!("{n} {}", w.trim_start_matches('/'))))
                .collect::<Vec<_>>()
                .join(", ")
        };
        println!("compare: {group}: {}", counts(&t.same, group));
        if group == "differences" {
            println!("compare: as docs/DIFFERENCES.md lists them: {}", counts(&t.listed, ""));
        }
    }
    if faults() > 0 {
        println!("compare: {} differences that no row lists.", faults());
    }
    faults() == 0
}
