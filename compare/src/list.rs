//! A list of cases with the text's own answers, written as the cases of crates/replay are: that program answers it, where neither the
//! text nor Rust is at hand. Only the text is called here, our library never. What docs/DIFFERENCES.md lists is left out by rule.
use crate::base::{strings, Rng, LETTERS};
use crate::block;
use crate::cmp::{Cmp, DefaultCmp, InternalKeyCmp};
use crate::filter::{inside, BloomPolicy, FilterPolicy};
use crate::filter_block::{FilterBlockBuilder, FilterBlockReader};
use crate::key_types::{self, LookupKey, ValueType};
use crate::pieces::near;
use crate::rules::{self, Item, EDITION_MAX};
use crate::table_reader;
use crate::tables::{hex, some_target, some_word};
use crate::text;
use crate::types::LdbIterator;
use std::collections::BTreeMap;
use std::rc::Rc;

struct List {
    r: Rng,
    lines: Vec<String>,
    answers: Vec<String>,
}

/// Bytes in hex; a byte that stands often is written once, with * and how often.
fn field(s: &[u8]) -> String {
    if s.is_empty() {
        return "-".into();
    }
    s.chunk_by(|a, b| a == b).map(|c| if c.len() > 4 { format!("{:02x}*{}.", c[0], c.len()) } else { hex(c) }).collect()
}

/// Short bytes in hex, none and long ones by their length and checksum.
fn shown(s: &[u8]) -> String {
    if (1..=40).contains(&s.len()) {
        hex(s)
    } else {
        format!("{}:{:08x}", s.len(), crate::crc::crc32(s))
    }
}

fn said(o: std::cmp::Ordering) -> String {
    format!("{o:?}").to_lowercase()
}

fn kind(k: u8) -> ValueType {
    if k == 0 {
        ValueType::TypeDeletion
    } else {
        ValueType::TypeValue
    }
}

fn may(m: bool) -> String {
    if m { "may" } else { "no" }.into()
}

impl List {
    fn case(&mut self, command: &str, fields: &[String], say: String) {
        self.lines.push([&[command.to_string()], fields].concat().join(" "));
        self.answers.push(format!("{command} {say}").trim_end().to_string());
    }

    fn word(&mut self, longest: usize) -> Vec<u8> {
        let n = self.r.within(1, longest);
        if self.r.one_in(2) {
            self.r.bytes(n)
        } else {
            (0..n).map(|_| self.r.of(&LETTERS)).collect()
        }
    }

    /// A long word that is short to write.
    fn long_word(&mut self) -> Vec<u8> {
        let n = if self.r.one_in(3) { self.r.within(1020, 1024) } else { self.r.within(20, 1024) };
        let mut w = vec![self.r.of(&LETTERS); n];
        let at = self.r.within(0, n - 1);
        w[at] = self.r.next() as u8;
        w
    }

    fn edition(&mut self) -> u64 {
        match self.r.within(0, 9) {
            0 => 0,
            1 => EDITION_MAX,
            2 => self.r.next() & EDITION_MAX,
            _ => self.r.within(0, 9) as u64,
        }
    }

    /// So many entries with strictly rising keys, or some fewer; some values with one byte up to so often.
    fn items(&mut self, n: usize, style: usize, long: usize) -> Vec<Item> {
        let mut items = vec![];
        while items.len() < n {
            let word = if style == 7 { self.long_word() } else { some_word(&mut self.r, style, n) };
            for _ in 0..self.r.of(&[1, 1, 1, 2, 3]) {
                let edition = self.edition();
                let kind = !self.r.one_in(5) as u8;
                let size = self.r.within(0, 6);
                let value = if long > 0 && self.r.one_in(2) { vec![self.r.of(&LETTERS); self.r.within(0, long)] } else { self.r.bytes(size) };
                items.push(Item { word: word.clone(), edition, kind, value });
            }
        }
        items.truncate(n);
        items.sort_by(|a, b| rules::order_points((&a.word, a.edition), (&b.word, b.edition)));
        items.dedup_by(|a, b| a.word == b.word && a.edition == b.edition);
        items
    }

    // ---- keys

    fn successor(&mut self, a: &[u8]) {
        self.case("n", &[field(a)], shown(&DefaultCmp.find_short_succ(a)));
    }

    /// Left out where a is empty or not below b, and where the text gives b itself.
    fn separator(&mut self, a: &[u8], b: &[u8]) {
        if !a.is_empty() && a < b && rules::shortest(a, b).as_slice() < b {
            self.case("u", &[field(a), field(b)], shown(&DefaultCmp.find_shortest_sep(a, b)));
        }
    }

    /// Of internal keys. Left out where the word is empty, where a is not below b, and where the text's index key is another one by rule.
    fn internal_separator(&mut self, a: &[u8], b: &[u8]) {
        if a.len() > 8 && rules::order(a, b).is_lt() && rules::text_separator(a, Some(b)) == rules::separator(a, b) {
            let s = InternalKeyCmp(Rc::new(Box::new(DefaultCmp))).find_shortest_sep(a, b);
            self.case("s", &[field(a), field(b)], shown(&s));
        }
    }

    fn keys(&mut self) {
        for a in strings(&LETTERS, 3) {
            self.successor(&a);
        }
        let few = strings(&[0x00, 0x01, 0x61, 0xff], 2);
        for a in &few {
            for b in &few {
                self.separator(a, b);
            }
        }
        for n in 0..240 {
            let a = if n % 40 == 0 { self.long_word() } else { self.word(if n % 4 == 0 { 30 } else { 8 }) };
            let b = if n % 8 == 1 { self.word(9) } else { near(&mut self.r, &a) };
            self.separator(&a, &b);
            if n % 8 == 0 {
                self.successor(&a);
            }
            let (e, f, k, l) = (self.edition(), self.edition(), self.r.one_in(3), self.r.one_in(3));
            let (key, other) = (rules::internal(&a, e, !k as u8), rules::internal(&b, f, !l as u8));
            self.internal_separator(&key, &other);
            match n % 4 {
                0 => {
                    let (kind, sequence, word) = key_types::parse_internal_key(&key);
                    let name = if kind == ValueType::TypeDeletion { "deletion" } else { "value" };
                    self.case("p", &[field(&key)], format!("{} {sequence} {name}", word.len()));
                    let built = LookupKey::new_full(&a, e, self::kind(!k as u8));
                    self.case("k", &[field(&a), e.to_string(), (!k as u8).to_string()], shown(built.internal_key()));
                }
                1 => {
                    let target = LookupKey::new(&b, f);
                    let o = key_types::cmp_internal_key(&DefaultCmp, &key, target.internal_key());
                    self.case("t", &[field(&key), field(&b), f.to_string()], said(o));
                }
                _ => {
                    let o = key_types::cmp_internal_key(&DefaultCmp, &key, &other);
                    self.case("i", &[field(&key), field(&other)], said(o));
                }
            }
        }
    }

    // ---- filters

    /// Left out where a filter has one byte that says how many probes.
    fn asked(&mut self, filter: &[u8], word: &[u8]) {
        if filter.len() != 1 || !(1..=30).contains(&filter[0]) {
            self.case("m", &[field(filter), field(word)], may(BloomPolicy::new(10).key_may_match(word, filter)));
        }
    }

    /// The words put together, and where each starts.
    fn joined(words: &[Vec<u8>]) -> (Vec<u8>, Vec<usize>) {
        let starts = words.iter().scan(0, |at, w| { *at += w.len(); Some(*at - w.len()) }).collect();
        (words.concat(), starts)
    }

    fn filter(&mut self, bits: u32, words: &[Vec<u8>], asks: usize) {
        let (all, starts) = Self::joined(words);
        let f = BloomPolicy::new(bits).create_filter(&all, &starts);
        let fields: Vec<String> = [bits.to_string()].into_iter().chain(words.iter().map(|w| field(w))).collect();
        self.case("f", &fields, shown(&f));
        for n in 0..asks {
            let w = self.r.within(0, words.len() - 1);
            let asked = if n % 3 == 0 { words[w].clone() } else { near(&mut self.r, &words[w]) };
            self.asked(&f, &asked);
        }
    }

    fn filters(&mut self) {
        for s in strings(&LETTERS, 3) {
            self.case("h", &[field(&s)], format!("{:08x}", inside::hash(&s)));
        }
        for n in 0..=70 {
            let s = self.r.bytes(n);
            self.case("h", &[field(&s)], format!("{:08x}", inside::hash(&s)));
        }
        for n in [100, 255, 256, 1000, 1023, 1024] {
            let s = vec![self.r.of(&LETTERS); n];
            self.case("h", &[field(&s)], format!("{:08x}", inside::hash(&s)));
        }
        for bits in 1..=64 {
            self.case("b", &[bits.to_string()], inside::probes(bits).to_string());
        }
        for bits in 1..=64 {
            for count in [1, self.r.within(2, 8)] {
                let words: Vec<_> = (0..count).map(|_| self.word(5)).collect();
                self.filter(bits, &words, if count == 1 { 1 } else { 2 });
            }
        }
        for count in (9..=24).chain([63, 64, 65, 100, 256]) {
            let words: Vec<_> = (0..count).map(|n: u16| n.wrapping_mul(40503).to_le_bytes()[..if count > 200 { 1 } else { 2 }].to_vec()).collect();
            let bits = if count > 200 { 64 } else { self.r.within(1, 64) as u32 };
            self.filter(bits, &words, 0);
        }
        // any bytes as a filter
        for n in 0..60 {
            let mut f = self.r.bytes(n % 10);
            let probes = self.r.of(&[0, 1, 2, 6, 29, 30, 31, 255]);
            for b in f.iter_mut() {
                *b |= if self.r.one_in(2) { 255 } else { 0 };
            }
            if let Some(last) = f.last_mut() {
                *last = probes;
            }
            let w = self.word(5);
            self.asked(&f, &w);
        }
        self.filter_blocks();
    }

    /// Words of one filter, so many filters, and the filter block of them. Without a filter made the text would make one of what waits.
    fn one_group(&mut self, bits: u32, upto: usize, words: &[Vec<u8>]) {
        let mut b = FilterBlockBuilder::new(text::policy(Some(bits)));
        words.iter().for_each(|w| b.add_key(w));
        b.start_block(2048 * upto);
        let s = b.finish();
        let filters = rules::fixed(&s, s.len() - 5);
        let made = FilterBlockReader::new_owned(text::policy(Some(bits)), s.clone()).num();
        assert!(filters <= 128 && made as usize == upto && upto <= 8);
        let fields: Vec<String> = [bits as usize, upto, 128, 8].iter().map(|n| n.to_string()).chain(words.iter().map(|w| field(w))).collect();
        self.case("M", &fields, format!("{filters} {made} {}", shown(&s)));
    }

    fn filter_blocks(&mut self) {
        for upto in 0..=8 {
            self.one_group(10, upto, &[]);
        }
        for bits in 1..=64 {
            let count = self.r.within(1, (1000 / bits as usize).min(8));
            let words: Vec<_> = (0..count).map(|_| self.word(4)).collect();
            let upto = if self.r.one_in(2) { 1 } else { self.r.within(1, 8) };
            self.one_group(bits, upto, &words);
        }
        // several groups, asked at every number; left out where the number is the count, and where its filter is empty
        for _ in 0..11 {
            let bits = self.r.within(1, 20) as u32;
            let mut b = FilterBlockBuilder::new(text::policy(Some(bits)));
            let mut offset = 0;
            let mut all = vec![];
            for _ in 0..self.r.within(1, 4) {
                for _ in 0..self.r.within(0, 4) {
                    let w = self.word(4);
                    b.add_key(&w);
                    all.push(w);
                }
                offset += self.r.of(&[700, 2047, 2048, 2049, 3000, 4096]);
                b.start_block(offset);
            }
            let s = b.finish();
            let reader = FilterBlockReader::new_owned(text::policy(Some(bits)), s.clone());
            let (count, array) = (reader.num() as usize, rules::fixed(&s, s.len() - 5));
            for n in 0..count + 3 {
                if n == count || n < count && rules::fixed(&s, array + 4 * n) == rules::fixed(&s, array + 4 * n + 4) {
                    continue;
                }
                for ask in 0..3 {
                    let at = 2048 * n + self.r.of(&[0, 1, 1000, 2047]);
                    let w = if ask < 2 && !all.is_empty() { all[self.r.within(0, all.len() - 1)].clone() } else { self.word(4) };
                    self.case("q", &[field(&s), at.to_string(), field(&w)], may(reader.key_may_match(at, &w)));
                }
            }
        }
    }

    // ---- blocks

    fn block(&mut self, interval: usize, items: &[Item], seeks: usize) {
        let pairs: Vec<_> = items.iter().map(|i| (i.key(), i.value.clone())).collect();
        let s = text::data_block(interval, &pairs);
        assert!(s.len() <= 65536);
        let fields: Vec<String> = [interval, 65536, 2048].iter().map(|n| n.to_string()).chain(pairs.iter().flat_map(|(k, v)| [field(k), field(v)])).collect();
        self.case("B", &fields, shown(&s));
        let entry = |it: &block::BlockIter| it.current().map_or("none".into(), |(k, v)| {
            let (start, value) = block::inside::place(it);
            format!("{start} {} at {value} {}", shown(&k), shown(&v))
        });
        let b = text::block(&s);
        let (mut it, mut starts, mut all) = (b.iter(), vec![], vec![]);
        while it.advance() {
            starts.push(block::inside::place(&it).0);
            all.push(entry(&it));
        }
        let n = all.len();
        self.case("W", &[], [&all[..n.min(6)], &[format!("of {n}")]].concat().join(" "));
        if n > 0 {
            for i in [0, self.r.within(0, n - 1), n - 1] {
                it.reset();
                (0..=i).for_each(|_| assert!(it.advance()));
                it.advance();
                self.case("N", &[starts[i].to_string()], entry(&it));
            }
        }
        for _ in 0..seeks {
            let (w, e) = some_target(&mut self.r, items);
            it.seek(LookupKey::new(&w, e).internal_key());
            self.case("S", &[field(&w), e.to_string()], entry(&it));
        }
    }

    fn blocks(&mut self) {
        let mut style = 0;
        for interval in [1, 2, 3, 16, 1024] {
            for n in [0, 1, 2, 3, 4, 5, 7, 10, 17, 20] {
                let items = self.items(n, style % 7, if n < 6 { 300 } else { 0 });
                self.block(interval, &items, if n == 0 { 1 } else { 5 });
                style += 1;
            }
            let items = self.items(4, 7, 15000);
            self.block(interval, &items, 5);
        }
        let many: Vec<Item> = (0..1027u16).map(|n| Item { word: n.to_be_bytes().to_vec(), edition: 0, kind: 1, value: vec![] }).collect();
        self.block(1024, &many, 12);
    }

    // ---- tables

    /// Whether a table of the text passes by the rule: no index key has more than 1,032 bytes or the word of the next block's first key.
    fn passes(t: &[u8]) -> bool {
        let index = rules::index(t);
        let ends: Vec<_> = index.iter().map(|(_, h)| rules::block(rules::part(t, *h)).pairs).map(|p| (p[0].0.clone(), p[p.len() - 1].0.clone())).collect();
        index.iter().enumerate().all(|(n, (key, _))| {
            let next = ends.get(n + 1).map(|e| rules::word(&e.0));
            key.len() <= 1032 && (next != Some(rules::word(key)) || next == Some(rules::word(&ends[n].1)))
        })
    }

    fn table(&mut self, block: usize, interval: usize, bits: Option<u32>, items: &[Item], t: &[u8]) {
        let opt = text::options(block, interval, bits);
        let table = text::reader(&opt, t);
        // The text's get panics where there is no filter; with a policy of another name it asks none.
        let asked = if bits.is_none() { text::reader(&text::options(4096, 16, Some(10)), t) } else { table.clone() };
        let entry = |it: &table_reader::TableIterator| it.current().map_or("none".into(), |(k, v)| {
            let (index, start, value) = table_reader::inside::place(it);
            format!("{index} {start} {} at {value} {}", shown(&k), shown(&v))
        });
        self.case("L", &[field(t)], t.len().to_string());
        self.case("V", &[], "pass".into());
        let (mut it, mut places, mut all) = (table.iter(), vec![], vec![]);
        while it.advance() {
            let (index, start, _) = table_reader::inside::place(&it);
            places.push((index, start));
            all.push(entry(&it));
        }
        let n = all.len();
        self.case("U", &[], [&all[..n.min(6)], &[format!("of {n}")]].concat().join(" "));
        if n > 0 {
            for i in [0, self.r.within(0, n - 1), n - 1] {
                let mut it = table.iter();
                (0..=i).for_each(|_| assert!(it.advance()));
                it.advance();
                self.case("P", &[places[i].0.to_string(), places[i].1.to_string(), "1032".into()], entry(&it));
            }
        }
        let index = rules::index(t);
        for n in 0..7 {
            let (w, e) = match items.len() {
                m if n < 3 && m > 0 => { let i = &items[self.r.within(0, m - 1)]; (i.word.clone(), i.edition) }
                _ => some_target(&mut self.r, items),
            };
            let target = LookupKey::new(&w, e);
            let target = target.internal_key();
            let fields = [field(&w), e.to_string(), "1032".into()];
            it.seek(target);
            self.case("J", &fields, entry(&it));
            // Left out where the target is an index key: there the text's get gives none. Its answer is looked at as its caller has to,
            // and where the entry stands is what its seek says.
            if index.iter().any(|(k, _)| rules::order(k, target).is_eq()) {
                continue;
            }
            let got = asked.get(target).unwrap().filter(|(k, _)| key_types::parse_internal_key(k).2 == w.as_slice());
            let say = match got {
                None => "absent".into(),
                Some((k, v)) => {
                    assert!(it.current() == Some((k.clone(), v)));
                    let deleted = key_types::parse_internal_key(&k).0 == ValueType::TypeDeletion;
                    format!("{}{}", if deleted { "deleted " } else { "" }, entry(&it))
                }
            };
            self.case("Q", &fields, say);
        }
    }

    /// Until there are enough; left out is what the text panics at as it is listed, what does not pass by the rule, and what is long to write.
    fn tables(&mut self) {
        for bits in [None, Some(10)] {
            let (t, done) = text::table(&text::options(64, 16, bits), &[]);
            assert_eq!(done, Ok(t.len()));
            self.table(64, 16, bits, &[], &t);
        }
        let mut made = 0;
        while made < 64 {
            let style = made % 8;
            let n = if self.r.one_in(3) { self.r.within(1, 5) } else { self.r.within(5, 22) };
            let long = self.r.of(&[0, 40, 300, 1500]);
            let items = self.items(n, style, long);
            let block = self.r.of(&[8, 8, 20, 21, 64, 100, 256, 1024, 4096]);
            let interval = self.r.of(&[1, 1, 2, 3, 16, 1024]);
            let bits = if self.r.one_in(4) { None } else { Some(self.r.within(1, 64) as u32) };
            let (t, done) = text::table(&text::options(block, interval, bits), &items);
            if let Err(place) = &done {
                assert_eq!(place, "block_builder.rs");
                continue;
            }
            if !Self::passes(&t) || !(200..=9000).contains(&t.len()) || field(&t).len() > 1050 {
                continue;
            }
            self.table(block, interval, bits, &items, &t);
            made += 1;
        }
    }
}

/// Writes FOLDER/stdin and FOLDER/stdout.
pub fn write(folder: &str) -> bool {
    let mut l = List { r: Rng(0x0419), lines: vec![], answers: vec![] };
    l.keys();
    l.filters();
    l.blocks();
    l.tables();
    let joined = |all: &[String]| all.join("\n") + "\n";
    let (stdin, stdout) = (joined(&l.lines), joined(&l.answers));
    let mut counts: BTreeMap<&str, usize> = BTreeMap::new();
    l.lines.iter().for_each(|line| *counts.entry(&line[..1]).or_default() += 1);
    let told = |name: &str, s: &str| std::fs::write(format!("{folder}/{name}"), s).map_err(|e| eprintln!("compare: {folder}/{name}: {e}")).is_ok();
    let done = told("stdin", &stdin) && told("stdout", &stdout);
    println!("compare: {} cases, {} bytes; {}", l.lines.len(), stdin.len(), counts.iter().map(|(c, n)| format!("{c} {n}")).collect::<Vec<_>>().join(", "));
    done
}
