//! Whole tables: the bytes of both builders, and each reader over the tables of both.
use crate::base::{caught, fault, hold, Rng, Tally, LETTERS};
use crate::options::Options;
use crate::ours::{self, Runs};
use crate::rules::{self, Item, EDITION_MAX};
use crate::table_builder::Footer;
use crate::text;
use crate::types::LdbIterator;
use std::cmp::Ordering;

pub struct Opts {
    pub block: usize,
    pub interval: usize,
    pub bits: Option<u32>,
}

fn some_options(r: &mut Rng) -> Opts {
    let block = match r.within(0, 4) {
        0 => r.within(8, 40),
        1 => r.within(8, 300),
        2 => r.of(&[8, 20, 21, 64, 1024, 2048, 4096, 65535, 65536]),
        3 => r.within(256, 8192),
        _ => r.within(8, 65536),
    };
    let interval = match r.within(0, 3) {
        0 => r.within(1, 4),
        1 => r.of(&[1, 2, 8, 16, 128, 1023, 1024]),
        2 => r.within(1, 40),
        _ => r.within(1, 1024),
    };
    Opts { block, interval, bits: if r.one_in(4) { None } else { Some(r.within(1, 64) as u32) } }
}

pub fn some_word(r: &mut Rng, style: usize, n: usize) -> Vec<u8> {
    let letters: &[u8] = match style {
        0 => &LETTERS,
        1 => &[0x61, 0x62, 0x63],
        2 => &[0x00, 0x01],
        3 => &[0xfe, 0xff],
        _ => &[],
    };
    match style {
        0..=3 => (0..r.within(1, if n > 200 { 7 } else { 4 })).map(|_| r.of(letters)).collect(),
        4 => {
            let n = r.within(1, 12);
            r.bytes(n)
        }
        5 => format!("entry/{:06}", r.within(0, 40 * n + 10)).into_bytes(),
        6 => {
            let mut w = vec![b'w'; r.within(1, 60)];
            let n = r.within(0, 3);
            w.extend(r.bytes(n));
            w
        }
        _ => {
            let n = if r.one_in(3) { r.within(1000, 1024) } else { r.within(1, 1024) };
            let c = r.of(&LETTERS);
            let mut w = vec![c; n];
            let at = r.within(0, n - 1);
            w[at] = r.next() as u8;
            w
        }
    }
}

/// Entries with strictly rising keys.
pub fn some_items(r: &mut Rng) -> Vec<Item> {
    let n = match r.within(0, 19) {
        0 => 0,
        1 => 1,
        2..=11 => r.within(2, 12),
        12..=17 => r.within(2, 80),
        18 => r.within(50, 300),
        _ => r.within(2, 1500),
    };
    let style = if r.one_in(40) { 7 } else { r.within(0, 6) };
    let versions = r.of(&[1, 1, 2, 5]);
    let long = r.of(&[0, 0, 8, 60, 60, 500, 4000, 32768]);
    let mut total = 0;
    let mut items = vec![];
    while items.len() < n && total < 600_000 {
        let word = some_word(r, style, n);
        for _ in 0..r.within(1, versions) {
            let edition = match r.within(0, 9) {
                0 => 0,
                1 => EDITION_MAX,
                2 => r.next() & EDITION_MAX,
                _ => r.within(0, 9) as u64,
            };
            let size = match r.within(0, 15) {
                0 => long,
                1 => 0,
                _ => r.within(0, long.min(40 * n + 40)),
            };
            total += word.len() + size;
            items.push(Item { word: word.clone(), edition, kind: if r.one_in(5) { 0 } else { 1 }, value: r.bytes(size) });
        }
    }
    items.sort_by(|a, b| rules::order_points((&a.word, a.edition), (&b.word, b.edition)));
    items.dedup_by(|a, b| a.word == b.word && a.edition == b.edition);
    items
}

fn pairs(items: &[Item]) -> Vec<(Vec<u8>, Vec<u8>)> {
    items.iter().map(|i| (i.key(), i.value.clone())).collect()
}

/// First and last key of each block of a table of ours, and its index.
struct Cuts {
    index: Vec<(Vec<u8>, rules::Handle)>,
    ends: Vec<(Vec<u8>, Vec<u8>)>,
}

fn cuts(t: &[u8]) -> Cuts {
    let index = rules::index(t);
    let mut c = Cuts { index, ends: vec![] };
    for (_, h) in &c.index {
        let p = rules::block(rules::part(t, *h)).pairs;
        c.ends.push((p[0].0.clone(), p[p.len() - 1].0.clone()));
    }
    c
}

/// Where a target stands: near an entry, or anywhere.
pub fn some_target(r: &mut Rng, items: &[Item]) -> (Vec<u8>, u64) {
    if items.is_empty() || r.one_in(8) {
        let n = r.within(1, 4);
        return (if r.one_in(2) { r.bytes(n) } else { (0..n).map(|_| r.of(&LETTERS)).collect() }, r.next() & EDITION_MAX);
    }
    let i = &items[r.within(0, items.len() - 1)];
    let (mut w, mut e) = (i.word.clone(), i.edition);
    match r.within(0, 7) {
        0 => e = e.saturating_sub(1),
        1 => e = (e + 1).min(EDITION_MAX),
        2 => e = EDITION_MAX,
        3 => e = 0,
        4 if w.len() < 1024 => w.push(0),
        5 if w.len() > 1 => {
            w.pop();
        }
        6 => {
            let at = r.within(0, w.len() - 1);
            w[at] = w[at].wrapping_add(r.of(&[1, 255]));
        }
        _ => {}
    }
    (w, e)
}

/// Both readers over a table that passes and holds the items.
fn read_both(
    r: &mut Rng,
    opt: &Options,
    t: &[u8],
    items: &[Item],
    bits: Option<u32>,
    whose: &'static str,
    index: &[Vec<u8>],
    tally: &mut Tally,
) {
    let all = pairs(items);
    let (ours, end) = ours::walk(t);
    hold(ours == all && end == 100, || format!("our walk over a table of {whose}: {} of {} entries, then {end}", ours.len(), all.len()));
    let theirs = caught(|| text::walk(text::reader(opt, t).iter()));
    hold(theirs.as_ref() == Ok(&all), || format!("the text's walk over a table of {whose}"));
    tally.same(if whose == "ours" { "reads/walks of our tables" } else { "reads/walks of the text's tables" }, 1);
    let table = text::reader(opt, t);
    // A policy of another name leaves the filter unasked.
    let unasked = text::reader(&text::options(4096, 16, Some(10)), t);
    let mut it = table.iter();
    for _ in 0..6 {
        let (w, e) = some_target(r, items);
        let at = items.partition_point(|i| rules::order_points((&i.word, i.edition), (&w, e)) == Ordering::Less);
        let target = rules::internal(&w, e, 1);
        let found = caught(|| {
            it.seek(&target);
            it.current().map(|(k, v)| (k.to_vec(), v.to_vec()))
        });
        let (entry, pair) = ours::seek(t, &w, e);
        hold(pair.as_ref() == all.get(at) && (pair.is_some() || entry.answer == 100), || format!("our seek in a table of {whose}"));
        hold(found == Ok(pair.clone()), || format!("seek of {w:x?} {e} in a table of {whose}: {found:x?}, ours {pair:x?}"));
        tally.same("reads/seeks", 1);
        // get: the text's answer is looked at as its caller has to.
        let (entry, pair) = ours::lookup(t, &w, e);
        let expected = items.get(at).filter(|i| i.word == w);
        hold(
            pair.as_ref() == expected.map(|_| &all[at]) && entry.answer == expected.map_or(100, |i| if i.kind == 0 { 101 } else { 0 }),
            || format!("our lookup in a table of {whose}"),
        );
        let reader = if bits.is_none() { &unasked } else { &table };
        let got =
            caught(|| reader.get(&target).unwrap().map(|(k, v)| (k.to_vec(), v.to_vec())).filter(|(k, _)| rules::word(k) == w.as_slice()));
        // The block that the index names, and whether the target is its index key.
        let n = index.partition_point(|k| rules::order(k, &target) == Ordering::Less);
        let is_index_key = n < index.len() && rules::order(&index[n], &target) == Ordering::Equal;
        match got {
            Ok(g) if g == pair => tally.same("reads/gets", 1),
            Ok(None) if is_index_key => tally.listed("get of an index key"),
            other => fault(|| format!("get of {w:x?} {e} in a table of {whose}: {other:x?}, ours {pair:x?}")),
        }
        if bits.is_none() && n < index.len() && !is_index_key {
            let got = caught(|| table.get(&target).map(|_| ()).unwrap());
            match got {
                Err(place) if place == "filter_block.rs" => tally.listed("get without filter"),
                other => fault(|| format!("get without filter: {other:?}")),
            }
        }
    }
}

pub fn one(r: &mut Rng, runs: &mut Runs, tally: &mut Tally) {
    let o = some_options(r);
    let items = some_items(r);
    compare(r, &o, &items, runs, tally);
}

pub fn compare(r: &mut Rng, o: &Opts, items: &[Item], runs: &mut Runs, tally: &mut Tally) {
    let ours = match ours::table(o.block, o.interval, o.bits, items, runs) {
        Ok(t) => t,
        Err((call, n)) => return fault(|| format!("our builder refuses call {call} with {n}")),
    };
    let opt = text::options(o.block, o.interval, o.bits);
    let (theirs, done) = text::table(&opt, items);
    tally.same("tables/tables", 1);
    tally.same("tables/entries", items.len());
    hold(ours::check(&ours) == 0, || "our table does not pass".into());

    // Index keys by the rules and as the text makes them.
    let c = cuts(&ours);
    let blocks = c.ends.len();
    let next = |n: usize| if n + 1 < blocks { Some(c.ends[n + 1].0.as_slice()) } else { None };
    let by_rules: Vec<Vec<u8>> = (0..blocks).map(|n| next(n).map_or(c.ends[n].1.clone(), |b| rules::separator(&c.ends[n].1, b))).collect();
    let by_text: Vec<Vec<u8>> = (0..blocks).map(|n| rules::text_separator(&c.ends[n].1, next(n))).collect();
    let keys = |ix: &[(Vec<u8>, rules::Handle)]| ix.iter().map(|(k, _)| k.clone()).collect::<Vec<_>>();
    hold(keys(&c.index) == by_rules, || "our index keys are not those of the rules".into());
    let mut next_itself = false;
    for n in 0..blocks {
        let last = &c.ends[n].1;
        tally.same("tables/handles in the index", 1);
        match next(n) {
            None => tally.listed("index key of the last block"),
            Some(b) if rules::word(&by_text[n]) == rules::word(b) && rules::word(last) != rules::word(b) => {
                next_itself = true;
                tally.listed("index key with the next key's word");
            }
            Some(_) if by_rules[n] == by_text[n] => tally.same("tables/index keys", 1),
            Some(b) if rules::word(last) == rules::word(b) => tally.listed("index key of a deletion"),
            Some(_) => tally.listed("index key not shorter"),
        }
        hold(next(n).is_none() || by_rules[n] == by_text[n] || by_rules[n] == *last, || "an index key differs by no rule".into());
    }
    let rising = |ks: &[Vec<u8>]| ks.windows(2).all(|k| rules::order(&k[0], &k[1]) == Ordering::Less);

    // The text panics exactly where its index keys do not rise.
    let (meta, index, _) = rules::footer(&ours);
    same_footer(&ours, tally);
    if !rising(&by_text) {
        tally.listed("panic of the text while building");
        hold(done.as_ref().err().map(|p| p.as_str()) == Some("block_builder.rs"), || {
            format!("the text ends with {done:?} where its index keys do not rise")
        });
        hold(meta.offset >= theirs.len() && ours.starts_with(&theirs), || "data blocks before a panic differ".into());
        return read_both(r, &opt, &ours, items, o.bits, "ours", &by_rules, tally);
    }
    if let Err(place) = done {
        return fault(|| format!("the text panics in {place}"));
    }
    hold(done == Ok(theirs.len()), || format!("the text says a size of {done:?}, {} bytes written", theirs.len()));

    // All bytes before the index, the footer's handles, each index entry.
    let (their_meta, their_index, their_end) = rules::footer(&theirs);
    same_footer(&theirs, tally);
    hold(their_meta == meta && their_index.offset == index.offset, || "footer handles differ".into());
    hold(ours[..index.offset] == theirs[..index.offset.min(theirs.len())], || "data blocks, filter block or metaindex differ".into());
    tally.same("tables/bytes before the index", index.offset);
    let foot = &theirs[theirs.len() - 48..];
    hold(foot[their_end..40].iter().all(|&b| b == 0) && foot[40..] == ours[ours.len() - 8..], || "footer padding or magic differs".into());
    let their_entries = rules::index(&theirs);
    hold(keys(&their_entries) == by_text, || "the text's index keys are not as foreseen".into());
    hold(their_entries.iter().map(|e| e.1).eq(c.index.iter().map(|e| e.1)), || "handles in the index differ".into());
    // The index block is that of the builder of blocks, with other keys.
    let values: Vec<Vec<u8>> = rules::block(rules::part(&ours, index)).pairs.into_iter().map(|p| p.1).collect();
    let again: Vec<_> = by_rules.iter().cloned().zip(values).collect();
    hold(text::data_block(o.interval, &again) == rules::part(&ours, index), || {
        "our index block is not what the text makes of its keys".into()
    });
    if items.is_empty() {
        hold(ours == theirs, || "empty tables differ".into());
        tally.same("tables/empty ones whole", 1);
    }

    // The check of the text's table: 10 exactly where an index key is too long, else 11 exactly where one has the next key's word.
    let answer = ours::check(&theirs);
    if by_text.iter().any(|k| k.len() > 1032) {
        tally.listed("table of the text that answers 10");
        hold(answer == 10, || format!("a table of the text with an index key of 1,033 bytes answers {answer}"));
    } else if next_itself {
        tally.listed("table of the text that answers 11");
        hold(answer == 11, || format!("a table of the text with a key's word as index key answers {answer}"));
        own_fault(&opt, &theirs, items, o.bits, tally);
    } else {
        hold(answer == 0, || format!("a table of the text answers {answer}"));
        read_both(r, &opt, &theirs, items, o.bits, "the text's", &by_text, tally);
    }
    read_both(r, &opt, &ours, items, o.bits, "ours", &by_rules, tally);
}

/// A footer decoded by both.
fn same_footer(t: &[u8], tally: &mut Tally) {
    let f = ours::footer(t);
    let theirs = caught(|| {
        Footer::decode(&t[t.len() - 48..]).map(|f| [f.meta_index.offset(), f.meta_index.size(), f.index.offset(), f.index.size()])
    });
    hold(f.answer == 0 && theirs == Ok(Some([f.meta_offset, f.meta_size, f.index_offset, f.index_size])), || {
        format!("a footer decoded: {theirs:?}, ours {f:?}")
    });
    tally.same("tables/footers decoded", 1);
}

/// What the text itself makes of a table of its own that answers 11: entries that its seek or get does not find.
fn own_fault(opt: &Options, t: &[u8], items: &[Item], bits: Option<u32>, tally: &mut Tally) {
    let table = text::reader(opt, t);
    let asked = if bits.is_none() { text::reader(&text::options(4096, 16, Some(10)), t) } else { table.clone() };
    let mut it = table.iter();
    for i in items {
        let key = i.key();
        let found = caught(|| {
            it.seek(&key);
            it.current().map(|(k, v)| (k.to_vec(), v.to_vec()))
        });
        if found != Ok(Some((key.clone(), i.value.clone()))) {
            tally.listed("entry of such a table that the text's seek misses");
        }
        let got = caught(|| asked.get(&key).unwrap().map(|(k, v)| (k.to_vec(), v.to_vec())));
        if got != Ok(Some((key.clone(), i.value.clone()))) {
            tally.listed("entry of such a table that the text's get misses");
        }
    }
}

/// Every table of up to three entries over a few words and editions, at block size 8: smaller ones first. The first table of each
/// listed difference.
pub fn small(runs: &mut Runs, tally: &mut Tally) -> Vec<(&'static str, String)> {
    let mut universe = vec![];
    for word in crate::base::strings(&[0, 1, 255], 2).into_iter().skip(1) {
        for edition in [1, 0] {
            for kind in [1, 0] {
                universe.push(Item { word: word.clone(), edition, kind, value: vec![] });
            }
        }
    }
    universe.sort_by(|a, b| rules::order_points((&a.word, a.edition), (&b.word, b.edition)));
    let rises = |a: &Item, b: &Item| rules::order_points((&a.word, a.edition), (&b.word, b.edition)) == Ordering::Less;
    let mut all = vec![vec![]];
    let mut from = 0;
    for _ in 0..3 {
        let to = all.len();
        for n in from..to {
            for i in &universe {
                if all[n].last().map_or(true, |last| rises(last, i)) {
                    let mut more: Vec<Item> = all[n].clone();
                    more.push(i.clone());
                    all.push(more);
                }
            }
        }
        from = to;
    }
    all.sort_by_key(|items: &Vec<Item>| {
        let words: Vec<_> = items.iter().map(|i| i.word.clone()).collect();
        (
            items.len(),
            words.concat().len(),
            items.iter().map(|i| i.edition).sum::<u64>(),
            items.iter().filter(|i| i.kind == 0).count(),
            words,
        )
    });
    let mut first: Vec<(&'static str, String)> = vec![];
    for (n, items) in all.iter().enumerate() {
        let mut t = Tally::default();
        compare(&mut Rng(n as u64), &Opts { block: 8, interval: 1, bits: if n % 2 == 0 { None } else { Some(10) } }, items, runs, &mut t);
        tally.same("tables/of them all of up to three entries", 1);
        for &rule in t.listed.keys() {
            if !first.iter().any(|f| f.0 == rule) {
                first.push((
                    rule,
                    items
                        .iter()
                        .map(|i| format!("{}:{}{}", hex(&i.word), i.edition, if i.kind == 0 { "d" } else { "" }))
                        .collect::<Vec<_>>()
                        .join(" "),
                ));
            }
        }
        tally.join(t);
    }
    first
}

pub fn hex(s: &[u8]) -> String {
    s.iter().map(|b| format!("{b:02x}")).collect()
}
