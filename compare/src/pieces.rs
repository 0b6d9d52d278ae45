//! The parts that tables are made of: separators, successors, hashes, filters, filter blocks, data blocks.
use crate::base::{caught, fault, hold, strings, Rng, Tally, LETTERS};
use crate::cmp::{Cmp, DefaultCmp, InternalKeyCmp};
use crate::filter::{inside, BloomPolicy, FilterPolicy};
use crate::filter_block::{FilterBlockBuilder, FilterBlockReader};
use crate::ours;
use crate::rules;
use crate::tables;
use crate::text;
use crate::types::LdbIterator;
use std::rc::Rc;

/// Keys that look alike: one made of the other by a few changes.
pub fn near(r: &mut Rng, a: &[u8]) -> Vec<u8> {
    let mut b = a.to_vec();
    for _ in 0..r.within(0, 3) {
        let at = if b.is_empty() { 0 } else { r.within(0, b.len() - 1) };
        match r.within(0, 5) {
            0 => b.push(r.of(&LETTERS)),
            1 => {
                b.pop();
            }
            2 if !b.is_empty() => b[at] = b[at].wrapping_add(1),
            3 if !b.is_empty() => b[at] = b[at].wrapping_add(2),
            4 if !b.is_empty() => b.truncate(at + 1),
            _ if !b.is_empty() => b[at] = r.of(&LETTERS),
            _ => {}
        }
    }
    b.truncate(1024);
    b
}

fn some_key(r: &mut Rng) -> Vec<u8> {
    let n = match r.within(0, 9) {
        0 => r.within(1000, 1024),
        1 => r.within(0, 1024),
        2 => r.within(0, 70),
        _ => r.within(0, 12),
    };
    match r.within(0, 2) {
        0 => r.bytes(n),
        1 => (0..n).map(|_| r.of(&LETTERS)).collect(),
        _ => vec![r.of(&LETTERS); n],
    }
}

pub fn successor(a: &[u8], t: &mut Tally) {
    let theirs = DefaultCmp.find_short_succ(a);
    hold(ours::successor(a) == theirs, || format!("successor of {}", tables::hex(a)));
    t.same("keys/successors", 1);
}

pub fn separator(a: &[u8], b: &[u8], t: &mut Tally) {
    let ours = ours::separator(a, b);
    hold(ours == rules::user_separator(a, b), || format!("our separator of {} and {}", tables::hex(a), tables::hex(b)));
    let theirs = caught(|| DefaultCmp.find_shortest_sep(a, b));
    match theirs {
        Ok(s) if s == ours => t.same("keys/separators", 1),
        _ if a.is_empty() => t.listed("separator of an empty key"),
        _ if a > b => t.listed("separator of a key that is above the next"),
        Ok(s) if s.as_slice() == b && ours == a => t.listed("separator that is the next key"),
        other => fault(|| format!("separator of {} and {}: {other:x?}, ours {}", tables::hex(a), tables::hex(b), tables::hex(&ours))),
    }
}

/// Of internal keys with a below b, a's word not empty.
fn internal_separator(a: &[u8], b: &[u8], t: &mut Tally) {
    let ours = ours::internal_separator(a, b);
    hold(ours == rules::separator(a, b), || format!("our internal separator of {} and {}", tables::hex(a), tables::hex(b)));
    let theirs = caught(|| InternalKeyCmp(Rc::new(Box::new(DefaultCmp))).find_shortest_sep(a, b));
    hold(theirs == Ok(rules::text_separator(a, Some(b))), || {
        format!("internal separator of {} and {} by the text: {theirs:x?}", tables::hex(a), tables::hex(b))
    });
    let theirs = theirs.unwrap_or_default();
    if theirs == ours {
        t.same("keys/internal separators", 1);
    } else if rules::word(a) == rules::word(b) {
        hold(rules::tag(a) % 256 == 0 && theirs == rules::internal(rules::word(a), rules::edition(a), 1), || {
            "internal separator of two versions".into()
        });
        t.listed("index key of a deletion");
    } else if rules::word(&theirs) == rules::word(b) {
        t.listed("index key with the next key's word");
    } else {
        hold(ours == a, || "internal separator".into());
        t.listed("index key not shorter");
    }
}

pub fn keys(part: usize, parts: usize, t: &mut Tally) {
    let all = strings(&LETTERS, 4);
    for a in all.iter().skip(part).step_by(parts) {
        successor(a, t);
        for b in &all {
            separator(a, b, t);
        }
    }
    // every string of up to two bytes, and all pairs of one byte with one and two bytes
    for x in (0..256usize).skip(part).step_by(parts) {
        let a = [x as u8];
        for y in 0..256usize {
            successor(&[x as u8, y as u8], t);
            separator(&a, &[y as u8], t);
            for &c in &LETTERS {
                separator(&a, &[y as u8, c], t);
                separator(&[y as u8, c], &a, t);
            }
        }
    }
    let few: Vec<Vec<u8>> = strings(&LETTERS, 2)
        .into_iter()
        .skip(1)
        .flat_map(|w| [(0, 0), (0, 1), (1, 0), (1, 1), (7, 1), (rules::EDITION_MAX, 1)].map(|(e, k)| rules::internal(&w, e, k)))
        .collect();
    for a in few.iter().skip(part).step_by(parts) {
        for b in &few {
            if rules::order(a, b).is_lt() {
                internal_separator(a, b, t);
            }
        }
    }
    let mut r = Rng(0xabc + part as u64);
    for _ in 0..200_000 / parts {
        let a = some_key(&mut r);
        let b = if r.one_in(4) { some_key(&mut r) } else { near(&mut r, &a) };
        successor(&a, t);
        separator(&a, &b, t);
        let e = |r: &mut Rng| if r.one_in(3) { r.next() & rules::EDITION_MAX } else { r.within(0, 3) as u64 };
        let (a, b) = (rules::internal(&a, e(&mut r), r.within(0, 1) as u8), rules::internal(&b, e(&mut r), r.within(0, 1) as u8));
        if a.len() > 8 && rules::order(&a, &b).is_lt() {
            internal_separator(&a, &b, t);
        }
    }
}

fn hash(a: &[u8], t: &mut Tally) {
    let theirs = inside::hash(a);
    hold(ours::hash(a) == theirs, || format!("hash of {}", tables::hex(a)));
    t.same("filters/hashes", 1);
    // the checksum itself is our shim's on the other side, its mask the text's
    let crc = crate::crc::crc32(a);
    hold(ours::crc(0, a) == crc && ours::mask(crc) == crate::log::mask_crc(crc), || format!("checksum of {}", tables::hex(a)));
    t.same("filters/masked checksums", 1);
}

fn may(policy: &BloomPolicy, key: &[u8], filter: &[u8], t: &mut Tally) {
    let ours = ours::may_match(filter, key);
    match caught(|| policy.key_may_match(key, filter)) {
        Ok(m) if m == ours => t.same("filters/keys asked of filters", 1),
        Err(place) if filter.len() == 1 && (1..=30).contains(&filter[0]) && place == "filter.rs" && ours => t.listed("filter of one byte"),
        other => fault(|| format!("{} asked of the filter {}: {other:?}, ours {ours}", tables::hex(key), tables::hex(filter))),
    }
}

pub fn filters(part: usize, parts: usize, t: &mut Tally) {
    let mut r = Rng(0xf117e5 + part as u64);
    for s in strings(&LETTERS, 5).iter().skip(part).step_by(parts) {
        hash(s, t);
    }
    for n in (0..=1024).skip(part).step_by(parts) {
        for _ in 0..20 {
            hash(&r.bytes(n), t);
        }
    }
    for bits in (1..=64u32).skip(part).step_by(parts) {
        hold(ours::probes(bits) == inside::probes(bits), || format!("probes at {bits} bits"));
        t.same("filters/numbers of probes", 1);
        let policy = BloomPolicy::new(bits);
        for count in (1..=70).chain([100, 127, 128, 200, 255, 256, 500, 1000, 2000]) {
            let words: Vec<Vec<u8>> =
                (0..count).map(|_| if count > 70 { r.next().to_le_bytes().to_vec() } else { some_key(&mut r) }).collect();
            let mut at = 0;
            let offsets: Vec<usize> = words
                .iter()
                .map(|w| {
                    at += w.len();
                    at - w.len()
                })
                .collect();
            let theirs = policy.create_filter(&words.concat(), &offsets);
            let ours = ours::filter(bits, &words);
            hold(ours == theirs, || format!("filter of {count} keys at {bits} bits"));
            t.same("filters/filters", 1);
            for w in words.iter().take(30) {
                hold(ours::may_match(&theirs, w), || "a filter denies a key of its own".into());
                may(&policy, w, &theirs, t);
                may(&policy, &near(&mut r, w), &theirs, t);
            }
            // any bytes as a filter
            for _ in 0..20 {
                let n = r.within(0, 12);
                let mut f = r.bytes(n);
                if n > 0 && r.one_in(2) {
                    f[n - 1] = r.within(0, 33) as u8;
                }
                for b in f.iter_mut().take(n.saturating_sub(1)) {
                    *b |= if r.one_in(2) { 255 } else { 0 };
                }
                may(&policy, &words[0], &f, t);
            }
        }
    }
}

/// Filter blocks by the offsets where blocks start; then asked at every number.
pub fn filter_blocks(part: usize, parts: usize, t: &mut Tally) {
    let mut r = Rng(0xb10c + part as u64);
    for _ in 0..3000 / parts {
        let bits = r.within(1, 64) as u32;
        let mut offset = 0;
        let mut steps: Vec<(Vec<Vec<u8>>, usize)> = vec![];
        for _ in 0..r.within(0, 8) {
            let count = if r.one_in(5) { 0 } else { r.within(1, 12) };
            let words = (0..count)
                .map(|_| {
                    let n = r.within(1, 9);
                    r.bytes(n)
                })
                .collect();
            offset += match r.within(0, 3) {
                0 => r.within(1, 100),
                1 => r.within(1, 2047),
                2 => r.of(&[1, 2047, 2048, 2049, 4096]),
                _ => r.within(1, 9000),
            };
            steps.push((words, offset));
        }
        let last: Vec<Vec<u8>> = (0..r.within(0, 3))
            .map(|_| {
                let n = r.within(1, 9);
                r.bytes(n)
            })
            .collect();
        let mut b = FilterBlockBuilder::new(text::policy(Some(bits)));
        for (words, offset) in &steps {
            words.iter().for_each(|w| b.add_key(w));
            b.start_block(*offset);
        }
        last.iter().for_each(|w| b.add_key(w));
        let theirs = b.finish();
        let ours = ours::filter_block(bits, &steps, &last);
        hold(ours == theirs, || format!("filter blocks of {steps:x?}: {} and {}", tables::hex(&theirs), tables::hex(&ours)));
        t.same("filters/filter blocks", 1);
        let reader = FilterBlockReader::new_owned(text::policy(Some(bits)), theirs.clone());
        let count = reader.num() as usize;
        let array = rules::fixed(&theirs, theirs.len() - 5);
        let words: Vec<Vec<u8>> = steps.iter().flat_map(|s| s.0.clone()).chain(last.clone()).take(4).chain([b"absent".to_vec()]).collect();
        for n in 0..count + 3 {
            let at = 2048 * n + r.within(0, 2047);
            for w in &words {
                let ours = ours::block_may_match(&theirs, at, w);
                let empty = n < count && rules::fixed(&theirs, array + 4 * n) == rules::fixed(&theirs, array + 4 * n + 4);
                match caught(|| reader.key_may_match(at, w)) {
                    Ok(m) if m == ours => t.same("filters/keys asked of filter blocks", 1),
                    Err(place) if n == count && ours && place == "filter_block.rs" => t.listed("filter number equal to the count"),
                    Err(place) if empty && ours && place == "filter_block.rs" => t.listed("empty filter in a filter block"),
                    other => fault(|| format!("filter block asked at number {n} of {count}: {other:?}, ours {ours}")),
                }
            }
        }
    }
}

fn one_block(r: &mut Rng, interval: usize, pairs: &[(Vec<u8>, Vec<u8>)], t: &mut Tally) {
    let theirs = text::data_block(interval, pairs);
    let ours = ours::data_block(interval, pairs);
    hold(ours == theirs && ours::block_check(&theirs) == 0, || format!("data blocks of {} entries at interval {interval}", pairs.len()));
    t.same("blocks/data blocks", 1);
    t.same("blocks/entries", pairs.len());
    let block = text::block(&theirs);
    let walked = text::walk(block.iter());
    hold(walked == pairs, || "the text's walk over a block".into());
    let ours = ours::block_walk(&theirs);
    hold(ours == walked, || format!("walk over a block of {} entries: {}", pairs.len(), ours.len()));
    t.same("blocks/walks", 1);
    let mut it = block.iter();
    for _ in 0..8 {
        let (mut w, mut e) = match pairs.len() {
            0 => (vec![1], 0),
            n => {
                let k = &pairs[r.within(0, n - 1)].0;
                (rules::word(k).to_vec(), rules::edition(k))
            }
        };
        match r.within(0, 4) {
            0 => e = e.saturating_sub(1),
            1 => e = (e + 1).min(rules::EDITION_MAX),
            2 => w = near(r, &w),
            3 => e = r.of(&[0, rules::EDITION_MAX]),
            _ => {}
        }
        if w.is_empty() {
            continue;
        }
        let found = caught(|| {
            it.seek(&rules::internal(&w, e, 1));
            it.current().map(|(k, v)| (k.to_vec(), v.to_vec()))
        });
        let ours = ours::block_seek(&theirs, &w, e);
        hold(found == Ok(ours.clone()), || format!("seek in a block: {found:x?}, ours {ours:x?}"));
        t.same("blocks/seeks", 1);
    }
}

pub fn blocks(part: usize, parts: usize, t: &mut Tally) {
    let mut r = Rng(0xda7a + part as u64);
    let words = strings(&LETTERS, 2);
    let few: Vec<Vec<u8>> = words[1..].iter().flat_map(|w| [1, 0].map(|e| rules::internal(w, e, 1))).collect();
    let mut few = few;
    few.sort_by(|a, b| rules::order(a, b));
    // every two of them, with a third at random
    for i in (0..few.len()).skip(part).step_by(parts) {
        for j in i + 1..few.len() {
            let mut pairs = vec![(few[i].clone(), vec![]), (few[j].clone(), vec![7])];
            if j + 1 < few.len() {
                pairs.push((few[r.within(j + 1, few.len() - 1)].clone(), vec![]));
            }
            for interval in 1..=3 {
                one_block(&mut r, interval, &pairs, t);
            }
        }
    }
    for _ in 0..6000 / parts {
        let items = tables::some_items(&mut r);
        let pairs: Vec<_> = items.iter().map(|i| (i.key(), i.value.clone())).collect();
        let interval = match r.within(0, 2) {
            0 => r.within(1, 20),
            1 => r.of(&[1, 2, 16, 1023, 1024]),
            _ => r.within(1, 1024),
        };
        if !pairs.is_empty() {
            one_block(&mut r, interval, &pairs, t);
        }
    }
}
