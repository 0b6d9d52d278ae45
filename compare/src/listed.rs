//! The rows of docs/DIFFERENCES.md that can be run, each at its smallest input: what the text does and what ours does.
use crate::base::{caught, fault, Tally};
use crate::block_builder::BlockBuilder;
use crate::cmp::{Cmp, DefaultCmp};
use crate::filter::{BloomPolicy, FilterPolicy};
use crate::filter_block::{FilterBlockBuilder, FilterBlockReader};
use crate::key_types;
use crate::options::Options;
use crate::ours::{self, Runs};
use crate::rules::{self, Item};
use crate::table_builder::TableBuilder;
use crate::tables::hex;
use crate::text;
use crate::types::LdbIterator;
use std::rc::Rc;

/// "00:1d=2" is the word 00 at edition 1, a deletion, with a value of 2 bytes.
fn items(s: &str) -> Vec<Item> {
    s.split_whitespace()
        .map(|i| {
            let (word, rest) = i.split_once(':').unwrap();
            let (rest, size) = rest.split_once('=').unwrap_or((rest, "0"));
            let word = match word.split_once('x') {
                Some((byte, n)) => vec![u8::from_str_radix(byte, 16).unwrap(); n.parse().unwrap()],
                None => (0..word.len()).step_by(2).map(|n| u8::from_str_radix(&word[n..n + 2], 16).unwrap()).collect(),
            };
            Item {
                word,
                edition: rest.trim_end_matches('d').parse().unwrap(),
                kind: !rest.ends_with('d') as u8,
                value: vec![0; size.parse().unwrap()],
            }
        })
        .collect()
}

fn said<T>(r: Result<T, String>, show: impl FnOnce(T) -> String) -> String {
    r.map_or_else(|place| format!("panics in {place}"), show)
}

fn found(pair: Option<(Vec<u8>, Vec<u8>)>) -> String {
    pair.map_or("none".into(), |(k, _)| format!("{}:{}", hex(rules::word(&k)), rules::edition(&k)))
}

fn index_key(t: &[u8], n: usize) -> String {
    let key = &rules::index(t)[n].0;
    format!("{}:{}{}", hex(rules::word(key)), rules::edition(key), if rules::tag(key) % 256 == 0 { "d" } else { "" })
}

/// A table put together of blocks by hand: data blocks, index keys, metaindex entries given the handles.
fn sealed(out: &mut Vec<u8>, s: &[u8]) -> Vec<u8> {
    use integer_encoding::VarInt;
    let mut h = vec![0; 20];
    let n = out.len().encode_var(&mut h);
    let m = s.len().encode_var(&mut h[n..]);
    h.truncate(n + m);
    out.extend_from_slice(s);
    out.push(0);
    let c = crc32c::crc32c(&[s, &[0]].concat());
    out.extend((c.rotate_right(15).wrapping_add(0xa282ead8)).to_le_bytes());
    h
}

fn by_hand(data: &[u8], key: &[u8], more: &[u8], meta: impl FnOnce(&mut Vec<u8>) -> Vec<(Vec<u8>, Vec<u8>)>) -> Vec<u8> {
    let mut out = vec![];
    let mut h = sealed(&mut out, data);
    h.extend_from_slice(more);
    let meta = meta(&mut out);
    let mut foot = sealed(&mut out, &text::data_block(16, &meta));
    foot.extend(sealed(&mut out, &text::data_block(16, &[(key.to_vec(), h)])));
    foot.resize(40, 0);
    out.extend(foot);
    out.extend([0x57, 0xfb, 0x80, 0x8b, 0x24, 0x75, 0x47, 0xdb]);
    out
}

/// A policy of another name whose filters deny every key.
struct Denies;

impl FilterPolicy for Denies {
    fn name(&self) -> &'static str {
        "leveldb.BuiltinBloomFilter1"
    }
    fn create_filter(&self, _: &[u8], _: &[usize]) -> Vec<u8> {
        vec![0, 0, 0, 0, 0, 0, 0, 0, 1]
    }
    fn key_may_match(&self, _: &[u8], _: &[u8]) -> bool {
        false
    }
}

struct Rows<'a> {
    tally: &'a mut Tally,
}

impl Rows<'_> {
    fn row(&mut self, what: &str, text: String, text_expected: &str, ours: String, ours_expected: &str) {
        self.tally.same("differences/rows at their smallest inputs", 1);
        if text != text_expected || ours != ours_expected {
            fault(|| format!("row '{what}': the text {text}, ours {ours}; listed are {text_expected} and {ours_expected}"));
        }
    }
}

fn build(opt: &Options, spec: &str) -> (Vec<u8>, Result<usize, String>) {
    text::table(opt, &items(spec))
}

fn get(opt: &Options, t: &[u8], word: &[u8], edition: u64) -> String {
    said(caught(|| text::reader(opt, t).get(&rules::internal(word, edition, 1)).unwrap().map(|(k, v)| (k.to_vec(), v.to_vec()))), found)
}

pub fn all(runs: &mut Runs, tally: &mut Tally) {
    let mut rows = Rows { tally };
    let plain = |block| text::options(block, 16, None);
    let bloom = text::options(8, 16, Some(10));
    let mut built = |block, interval, bits, spec: &str| ours::table(block, interval, bits, &items(spec), runs);
    let refusal = |r: Result<Vec<u8>, (usize, u32)>| r.map_or_else(|(call, n)| format!("call {call} answers {n}"), |_| "built".into());
    let checked = |t: &[u8]| format!("check {}", ours::check(t));

    // separators
    let sep = |a: &[u8], b: &[u8]| said(caught(|| DefaultCmp.find_shortest_sep(a, b)), |s| hex(&s));
    rows.row("separator that is the next key", sep(&[0], &[0, 0]), "0000", hex(&ours::separator(&[0], &[0, 0])), "00");
    rows.row("separator of an empty key", sep(&[], &[0]), "panics in cmp.rs", hex(&ours::separator(&[], &[0])), "");
    rows.row("separator of a key above the next", sep(&[0], &[]), "0000", hex(&ours::separator(&[0], &[])), "00");
    rows.row(
        "separator of a key above the next, a panic",
        sep(&[1, 0], &[0, 2]),
        "panics in cmp.rs",
        hex(&ours::separator(&[1, 0], &[0, 2])),
        "0100",
    );

    // index keys
    let keys = |spec: &str, n, b: &mut dyn FnMut(usize, usize, Option<u32>, &str) -> Result<Vec<u8>, (usize, u32)>| {
        (index_key(&build(&plain(8), spec).0, n), index_key(&b(8, 16, None, spec).unwrap(), n))
    };
    for (what, spec, text_key, our_key) in [
        ("index key of the last block", "00:0", "0000:0", "00:0"),
        ("index key not shorter", "00:0 01:0", "0000:0", "00:0"),
        ("index key of a deletion", "00:1d 00:0", "00:1", "00:1d"),
        ("index key with the next key's word", "00:0 0000:0", "0000:0", "00:0"),
    ] {
        let (t, o) = keys(spec, 0, &mut built);
        rows.row(what, t, text_key, o, our_key);
    }
    let spec = "00:0 0000:0";
    let t = build(&plain(8), spec).0;
    rows.row("table that answers 11", checked(&t), "check 11", checked(&built(8, 16, None, spec).unwrap()), "check 0");
    rows.row(
        "an entry that its own get misses",
        get(&bloom, &t, &[0, 0], 0),
        "none",
        found(ours::lookup(&built(8, 16, None, spec).unwrap(), &[0, 0], 0).1),
        "0000:0",
    );
    let spec = "00:0 0000:1 0000:0";
    rows.row(
        "panic while building",
        said(build(&plain(8), spec).1, |n| n.to_string()),
        "panics in block_builder.rs",
        refusal(built(8, 16, None, spec)),
        "built",
    );
    let spec = "00:0=2 0000:1 0000:0";
    let t = build(&plain(21), spec).0;
    let mut it = text::reader(&plain(21), &t).iter();
    it.seek(&rules::internal(&[0, 0], 0, 1));
    rows.row(
        "a seek of its own that gives an entry below the target",
        found(it.current().map(|(k, v)| (k.to_vec(), v.to_vec()))),
        "0000:1",
        found(ours::seek(&built(21, 16, None, spec).unwrap(), &[0, 0], 0).1),
        "0000:0",
    );
    let spec = "ffx1024:0";
    rows.row(
        "index key of 1,033 bytes",
        checked(&build(&plain(8), spec).0),
        "check 10",
        checked(&built(8, 16, None, spec).unwrap()),
        "check 0",
    );

    // additions outside the limits or the order
    let after = |spec: &str| {
        let (mut out, mut adding) = (vec![], true);
        let done = caught(|| {
            let mut b = TableBuilder::new(plain(8), &mut out);
            for i in items(spec) {
                b.add(&i.key(), &i.value).unwrap();
            }
            adding = false;
            b.finish().unwrap()
        });
        match done {
            Ok(_) => format!("accepted; {}", checked(&out)),
            Err(place) if adding => format!("panics in {place}"),
            Err(place) => format!("accepted; panics in {place}"),
        }
    };
    rows.row(
        "the same key again after a cut",
        after("00:0 00:0"),
        "accepted; check 11",
        refusal(built(8, 16, None, "00:0 00:0")),
        "call 2 answers 4",
    );
    rows.row(
        "the same key again in a block",
        said(build(&plain(20), "00:0 00:0").1, |n| n.to_string()),
        "panics in block_builder.rs",
        refusal(built(20, 16, None, "00:0 00:0")),
        "call 2 answers 4",
    );
    rows.row(
        "a falling key after a cut",
        after("01:0 00:0"),
        "accepted; panics in block_builder.rs",
        refusal(built(8, 16, None, "01:0 00:0")),
        "call 2 answers 4",
    );
    rows.row("an empty word", after(":0"), "accepted; panics in cmp.rs", refusal(built(8, 16, None, ":0")), "call 1 answers 3");
    rows.row(
        "a word of 1,025 bytes",
        after("00x1025:0"),
        "accepted; check 10",
        refusal(built(8, 16, None, "00x1025:0")),
        "call 1 answers 3",
    );
    rows.row(
        "a value of 32,769 bytes",
        after("00:0=32769"),
        "accepted; check 10",
        refusal(built(8, 16, None, "00:0=32769")),
        "call 1 answers 3",
    );
    rows.row(
        "interval 0",
        {
            let (t, r) = build(&text::options(8, 0, None), "00:0");
            said(r, |_| format!("restarts {:?}, {}", rules::block(rules::part(&t, rules::index(&t)[0].1)).restarts, checked(&t)))
        },
        "restarts [0, 0], check 10",
        refusal(built(8, 0, None, "00:0")),
        "call 0 answers 1",
    );

    // gets
    let t = built(8, 16, Some(10), "00:0").unwrap();
    rows.row("get of an index key", get(&bloom, &t, &[0], 0), "none", found(ours::lookup(&t, &[0], 0).1), "00:0");
    let t = build(&bloom, "00:1 00:0").0;
    rows.row("get of an index key in a table of its own", get(&bloom, &t, &[0], 1), "none", found(ours::lookup(&t, &[0], 1).1), "00:1");
    let t = build(&plain(8), "00:0").0;
    rows.row("get without filter", get(&plain(8), &t, &[0], 0), "panics in filter_block.rs", found(ours::lookup(&t, &[0], 0).1), "00:0");
    let t = build(&Options { filter_policy: Rc::new(Box::new(Denies)), ..plain(8) }, "00:0").0;
    rows.row("a filter of another name", get(&bloom, &t, &[0], 0), "none", found(ours::lookup(&t, &[0], 0).1), "00:0");

    // filters
    rows.row(
        "filter of no keys",
        hex(&BloomPolicy::new(10).create_filter(&[], &[])),
        "000000000000000006",
        hex(&ours::filter(10, &[])),
        "",
    );
    let may = |f: &[u8]| said(caught(|| BloomPolicy::new(10).key_may_match(&[], f)), |m| m.to_string());
    rows.row("filter of one byte", may(&[1]), "panics in filter.rs", ours::may_match(&[1], &[]).to_string(), "true");
    let ask = |s: &[u8]| {
        said(caught(|| FilterBlockReader::new_owned(text::policy(Some(10)), s.to_vec()).key_may_match(0, &[])), |m| m.to_string())
    };
    let s = FilterBlockBuilder::new(text::policy(Some(10))).finish();
    rows.row(
        "filter number equal to the count",
        ask(&s),
        "panics in filter_block.rs",
        ours::block_may_match(&s, 0, &[]).to_string(),
        "true",
    );
    let mut b = FilterBlockBuilder::new(text::policy(Some(10)));
    b.start_block(2048);
    let s = b.finish();
    rows.row("empty filter in a filter block", ask(&s), "panics in filter_block.rs", ours::block_may_match(&s, 0, &[]).to_string(), "true");

    // damage and other files
    let open = |t: &[u8]| {
        said(caught(|| text::walk(text::reader(&bloom, t).iter())), |all| {
            all.into_iter().map(|p| found(Some(p))).collect::<Vec<_>>().join(" ")
        })
    };
    rows.row("no bytes", open(&[]), "panics in table_reader.rs", checked(&[]), "check 7");
    rows.row("another magic", open(&[0; 48]), "panics in table_builder.rs", checked(&[0; 48]), "check 7");
    let mut t = build(&bloom, "00:0").0;
    let (meta, _, _) = rules::footer(&t);
    for b in &mut t[25..meta.offset - 15] {
        *b = 0; // all but k of the filter
    }
    rows.row("damage in the filter block", get(&bloom, &t, &[0], 0), "none", checked(&t), "check 9");
    let mut t = build(&bloom, "00:0 01:0").0;
    t[3] ^= 1;
    rows.row("damage in a data block", open(&t), "01:0", checked(&t), "check 9");
    let t = build(&Options { compressor: 1, ..plain(8) }, "00:0").0;
    rows.row("a compressed block", open(&t), "00:0", checked(&t), "check 9");
    let key = rules::internal(&[0], 0, 1);
    let data = text::data_block(16, &[(key.clone(), vec![])]);
    let t = by_hand(&data, &key, &[0], |_| vec![]);
    rows.row("a byte after a handle in the index", open(&t), "00:0", checked(&t), "check 10");
    let t = by_hand(&[&[1, 9, 0][..], &key, &[0, 0, 0, 0, 1, 0, 0, 0]].concat(), &key, &[], |_| vec![]);
    rows.row("shared longer than the key before", open(&t), "00:0", checked(&t), "check 10");
    let t = by_hand(&data, &key, &[], |out| vec![(b"filter.leveldb.BuiltinBloomFilter2".to_vec(), sealed(out, &[]))]);
    rows.row("a filter block of size 0", open(&t), "00:0", checked(&t), "check 12");
    let mut b = BlockBuilder::new(text::by_points(plain(8)));
    b.reset();
    b.add(&key, &[]);
    let block = b.finish();
    let t = by_hand(&block, &key, &[], |_| vec![]);
    rows.row(
        "BlockBuilder::reset",
        format!("restarts {:?}, {}", rules::block(&block).restarts, checked(&t)),
        "restarts [], check 10",
        String::new(),
        "",
    );

    // keys too short for a tag: ours are never asked, their word and edition are given apart
    rows.row(
        "parse_internal_key of 7 bytes",
        said(caught(|| key_types::parse_internal_key(&[0; 7]).1), |n| n.to_string()),
        "panics in key_types.rs",
        String::new(),
        "",
    );
    rows.row(
        "cmp_internal_key of 7 bytes",
        said(caught(|| key_types::cmp_internal_key(&DefaultCmp, &[0; 7], &[0; 8])), |o| format!("{o:?}")),
        "panics in key_types.rs",
        String::new(),
        "",
    );
}
