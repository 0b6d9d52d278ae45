//! Our side: the library by its C functions (include/salevoni.h).
use crate::rules::Item;

#[repr(C)]
#[derive(Clone, Copy, Debug, PartialEq)]
pub struct Entry {
    pub answer: u32,
    pub index: usize,
    pub entry: usize,
    pub key_len: usize,
    pub value_at: usize,
    pub value_len: usize,
}

#[repr(C)]
#[derive(Clone, Copy)]
pub struct Block {
    pub interval: usize,
    pub bytes: usize,
    pub restarts: usize,
    pub since: usize,
    pub len: usize,
    pub last: [u8; 1032],
}

#[repr(C)]
#[derive(Clone, Copy)]
pub struct Lengths {
    pub runs: [usize; 7],
}

#[repr(C)]
#[derive(Clone, Copy)]
pub struct State {
    pub block_size: usize,
    pub interval: usize,
    pub filter: u32,
    pub bits: u32,
    pub lengths: Lengths,
    pub written: usize,
    pub pending: Block,
    pub indexed: Block,
    pub filtered: usize,
    pub made: usize,
    pub waiting: usize,
    pub finished: u32,
}

#[repr(C)]
#[derive(Clone, Copy)]
pub struct Built {
    pub answer: u32,
    pub size: usize,
    pub state: State,
}

#[repr(C)]
#[derive(Clone, Copy)]
struct Size {
    answer: u32,
    size: usize,
}

#[repr(C)]
#[derive(Clone, Copy)]
struct Filters {
    answer: u32,
    bytes: usize,
    made: usize,
}

#[repr(C)]
#[derive(Clone, Copy)]
struct BlockAdded {
    answer: u32,
    block: Block,
}

#[repr(C)]
#[derive(Clone, Copy)]
struct Row {
    answer: u32,
    start: usize,
    key_len: usize,
    value_at: usize,
    value_len: usize,
}

#[repr(C)]
#[derive(Clone, Copy, Debug, PartialEq)]
pub struct Footer {
    pub answer: u32,
    pub meta_offset: usize,
    pub meta_size: usize,
    pub index_offset: usize,
    pub index_size: usize,
}

/// A function over the seven runs: its name, what stands before them, and what behind.
macro_rules! over_runs {
    ($name:ident($($before:ident: $b:ty),*)($($behind:ident: $e:ty),*)) => {
        fn $name(
            $($before: $b,)*
            out: *mut u8,
            out_len: usize,
            index: *mut u8,
            index_len: usize,
            filters: *mut u8,
            filters_len: usize,
            restarts: *mut u32,
            restarts_len: usize,
            index_restarts: *mut u32,
            index_restarts_len: usize,
            offsets: *mut u32,
            offsets_len: usize,
            hashes: *mut u32,
            hashes_len: usize,
            $($behind: $e),*
        ) -> Built;
    };
}

#[link(name = "exports", kind = "static")]
extern "C" {
    fn salevoni_check(table: *const u8, len: usize) -> u32;
    fn salevoni_seek(table: *const u8, len: usize, word: *const u8, word_len: usize, edition: u64, key: *mut u8, key_size: usize) -> Entry;
    fn salevoni_lookup(
        table: *const u8,
        len: usize,
        word: *const u8,
        word_len: usize,
        edition: u64,
        key: *mut u8,
        key_size: usize,
    ) -> Entry;
    fn salevoni_step(table: *const u8, len: usize, index: usize, entry: usize, key: *mut u8, key_size: usize) -> Entry;
    over_runs!(salevoni_start(block_size: usize, interval: usize, filter: u32, bits: u32)());
    over_runs!(salevoni_add(state: State)(word: *const u8, word_len: usize, edition: u64, kind: u8, value: *const u8, value_len: usize));
    over_runs!(salevoni_finish(state: State)());
}

#[link(name = "pieces", kind = "static")]
extern "C" {
    fn salevoni_footer(table: *const u8, len: usize) -> Footer;
    fn salevoni_crc(crc: u32, bytes: *const u8, len: usize) -> u32;
    fn salevoni_mask(crc: u32) -> u32;
    fn salevoni_separator(out: *mut u8, out_len: usize, a: *const u8, a_len: usize, b: *const u8, b_len: usize) -> Size;
    fn salevoni_internal_separator(out: *mut u8, out_len: usize, a: *const u8, a_len: usize, b: *const u8, b_len: usize) -> Size;
    fn salevoni_short_succ(out: *mut u8, out_len: usize, a: *const u8, a_len: usize) -> Size;
    fn salevoni_hash(bytes: *const u8, len: usize) -> u32;
    fn salevoni_probes(bits: u32) -> u32;
    fn salevoni_filter(bits: u32, hashes: *const u32, hashes_len: usize, out: *mut u8, out_len: usize) -> Size;
    fn salevoni_filter_may(filter: *const u8, len: usize, hash: u32) -> u32;
    fn salevoni_filter_block_add(
        bits: u32,
        hashes: *const u32,
        hashes_len: usize,
        count: usize,
        filters: *mut u8,
        filters_len: usize,
        bytes: usize,
        offsets: *mut u32,
        offsets_len: usize,
        made: usize,
    ) -> Filters;
    fn salevoni_filter_block_finish(
        filters: *const u8,
        filters_len: usize,
        offsets: *const u32,
        offsets_len: usize,
        out: *mut u8,
        out_len: usize,
    ) -> Size;
    fn salevoni_filter_block_may(block: *const u8, len: usize, offset: usize, hash: u32) -> u32;
    fn salevoni_block_start(interval: usize) -> Block;
    fn salevoni_block_add(
        block: Block,
        out: *mut u8,
        out_len: usize,
        restarts: *mut u32,
        restarts_len: usize,
        key: *const u8,
        key_len: usize,
        value: *const u8,
        value_len: usize,
    ) -> BlockAdded;
    fn salevoni_block_finish(block: Block, out: *mut u8, out_len: usize, restarts: *const u32, restarts_len: usize) -> Size;
    fn salevoni_block_check(block: *const u8, len: usize, kind: u32) -> u32;
    fn salevoni_block_first(block: *const u8, len: usize, key: *mut u8, key_len: usize) -> Row;
    fn salevoni_block_after(block: *const u8, len: usize, start: usize, key: *mut u8, key_len: usize) -> Row;
    fn salevoni_block_seek(
        block: *const u8,
        len: usize,
        word: *const u8,
        word_len: usize,
        edition: u64,
        key: *mut u8,
        key_len: usize,
    ) -> Row;
}

pub type Pair = (Vec<u8>, Vec<u8>);

pub fn check(t: &[u8]) -> u32 {
    unsafe { salevoni_check(t.as_ptr(), t.len()) }
}

fn with_pair(t: &[u8], key: &[u8], e: Entry) -> (Entry, Option<Pair>) {
    let found = e.answer == 0 || e.answer == 101;
    (e, found.then(|| (key[..e.key_len].to_vec(), t[e.value_at..e.value_at + e.value_len].to_vec())))
}

pub fn seek(t: &[u8], word: &[u8], edition: u64) -> (Entry, Option<Pair>) {
    let mut key = [0; 1032];
    let e = seek_in(t, word, edition, &mut key);
    with_pair(t, &key, e)
}

/// A lookup and a seek with a key buffer of the caller's.
pub fn lookup_in(t: &[u8], word: &[u8], edition: u64, key: &mut [u8]) -> Entry {
    unsafe { salevoni_lookup(t.as_ptr(), t.len(), word.as_ptr(), word.len(), edition, key.as_mut_ptr(), key.len()) }
}

pub fn seek_in(t: &[u8], word: &[u8], edition: u64, key: &mut [u8]) -> Entry {
    unsafe { salevoni_seek(t.as_ptr(), t.len(), word.as_ptr(), word.len(), edition, key.as_mut_ptr(), key.len()) }
}

pub fn lookup(t: &[u8], word: &[u8], edition: u64) -> (Entry, Option<Pair>) {
    let mut key = [0; 1032];
    let e = lookup_in(t, word, edition, &mut key);
    with_pair(t, &key, e)
}

pub fn step(t: &[u8], at: Entry) -> (Entry, Option<Pair>) {
    let mut key = [0; 1032];
    let e = unsafe { salevoni_step(t.as_ptr(), t.len(), at.index, at.entry, key.as_mut_ptr(), key.len()) };
    with_pair(t, &key, e)
}

/// A seek to the least point, then steps; and the answer that ended it.
pub fn walk(t: &[u8]) -> (Vec<Pair>, u32) {
    let mut all = vec![];
    let mut now = seek(t, &[0], crate::rules::EDITION_MAX);
    while let Some(pair) = now.1 {
        all.push(pair);
        now = step(t, now.0);
    }
    (all, now.0.answer)
}

/// The seven runs that a builder works in.
pub struct Runs {
    pub bytes: [Vec<u8>; 3],
    pub numbers: [Vec<u32>; 4],
}

macro_rules! seven {
    ($f:ident, ($($before:expr),*), $r:expr $(, $after:expr)*) => {{
        let r = $r;
        let [a, b, c] = &mut r.bytes;
        let [d, e, f, g] = &mut r.numbers;
        unsafe {
            $f($($before,)* a.as_mut_ptr(), a.len(), b.as_mut_ptr(), b.len(), c.as_mut_ptr(), c.len(), d.as_mut_ptr(), d.len(),
               e.as_mut_ptr(), e.len(), f.as_mut_ptr(), f.len(), g.as_mut_ptr(), g.len() $(, $after)*)
        }
    }};
}

impl Runs {
    pub fn new(room: usize) -> Runs {
        Runs { bytes: std::array::from_fn(|_| vec![0; room]), numbers: std::array::from_fn(|_| vec![0; room / 4 + 1]) }
    }
}

pub fn start(block_size: usize, interval: usize, bits: Option<u32>, r: &mut Runs) -> Built {
    seven!(salevoni_start, (block_size, interval, bits.is_some() as u32, bits.unwrap_or(0)), r)
}

pub fn add(s: State, r: &mut Runs, i: &Item) -> Built {
    seven!(salevoni_add, (s), r, i.word.as_ptr(), i.word.len(), i.edition, i.kind, i.value.as_ptr(), i.value.len())
}

pub fn finish(s: State, r: &mut Runs) -> Built {
    seven!(salevoni_finish, (s), r)
}

/// The finished table, or which call was refused and with what.
pub fn table(block_size: usize, interval: usize, bits: Option<u32>, items: &[Item], r: &mut Runs) -> Result<Vec<u8>, (usize, u32)> {
    let mut b = start(block_size, interval, bits, r);
    if b.answer != 0 {
        return Err((0, b.answer));
    }
    for (n, i) in items.iter().enumerate() {
        b = add(b.state, r, i);
        if b.answer != 0 {
            return Err((n + 1, b.answer));
        }
    }
    b = finish(b.state, r);
    if b.answer != 0 {
        return Err((items.len() + 1, b.answer));
    }
    Ok(r.bytes[0][..b.size].to_vec())
}

// ---- pieces

/// What is written into a run; no bytes of it beyond.
fn written(n: usize, f: impl FnOnce(*mut u8, usize) -> Size) -> Vec<u8> {
    let mut out = vec![0xa5; n];
    let s = f(out.as_mut_ptr(), n);
    assert!(s.answer == 0 && out[s.size..].iter().all(|&b| b == 0xa5));
    out.truncate(s.size);
    out
}

pub fn footer(t: &[u8]) -> Footer {
    unsafe { salevoni_footer(t.as_ptr(), t.len()) }
}

pub fn crc(crc: u32, s: &[u8]) -> u32 {
    unsafe { salevoni_crc(crc, s.as_ptr(), s.len()) }
}

pub fn mask(crc: u32) -> u32 {
    unsafe { salevoni_mask(crc) }
}

pub fn separator(a: &[u8], b: &[u8]) -> Vec<u8> {
    written(a.len() + 9, |o, n| unsafe { salevoni_separator(o, n, a.as_ptr(), a.len(), b.as_ptr(), b.len()) })
}

pub fn internal_separator(a: &[u8], b: &[u8]) -> Vec<u8> {
    written(a.len() + 9, |o, n| unsafe { salevoni_internal_separator(o, n, a.as_ptr(), a.len(), b.as_ptr(), b.len()) })
}

pub fn successor(a: &[u8]) -> Vec<u8> {
    written(a.len() + 9, |o, n| unsafe { salevoni_short_succ(o, n, a.as_ptr(), a.len()) })
}

pub fn hash(s: &[u8]) -> u32 {
    unsafe { salevoni_hash(s.as_ptr(), s.len()) }
}

pub fn probes(bits: u32) -> u32 {
    unsafe { salevoni_probes(bits) }
}

pub fn filter(bits: u32, words: &[Vec<u8>]) -> Vec<u8> {
    let hashes: Vec<u32> = words.iter().map(|w| hash(w)).collect();
    written(bits as usize * words.len() / 8 + 99, |o, n| unsafe { salevoni_filter(bits, hashes.as_ptr(), hashes.len(), o, n) })
}

pub fn may_match(filter: &[u8], key: &[u8]) -> bool {
    unsafe { salevoni_filter_may(filter.as_ptr(), filter.len(), hash(key)) == 1 }
}

/// Of the words of each block and where the next one starts, then words that are still pending.
pub fn filter_block(bits: u32, steps: &[(Vec<Vec<u8>>, usize)], last: &[Vec<u8>]) -> Vec<u8> {
    let (mut filters, mut offsets) = (vec![0; 1 << 16], vec![0u32; 1 << 10]);
    let mut now = Filters { answer: 0, bytes: 0, made: 0 };
    let mut hashes = vec![];
    let mut make = |hashes: &mut Vec<u32>, now: Filters, count: usize| {
        let next = unsafe {
            salevoni_filter_block_add(
                bits,
                hashes.as_ptr(),
                hashes.len(),
                count,
                filters.as_mut_ptr(),
                filters.len(),
                now.bytes,
                offsets.as_mut_ptr(),
                offsets.len(),
                now.made,
            )
        };
        assert_eq!(next.answer, 0);
        if next.made > now.made {
            hashes.clear();
        }
        next
    };
    for (words, offset) in steps {
        hashes.extend(words.iter().map(|w| hash(w)));
        now = make(&mut hashes, now, offset / 2048);
    }
    hashes.extend(last.iter().map(|w| hash(w)));
    if !hashes.is_empty() {
        now = make(&mut hashes, now, now.made + 1);
    }
    written(now.bytes + 4 * now.made + 20, |o, n| unsafe {
        salevoni_filter_block_finish(filters.as_ptr(), now.bytes, offsets.as_ptr(), now.made, o, n)
    })
}

pub fn block_may_match(block: &[u8], offset: usize, key: &[u8]) -> bool {
    unsafe { salevoni_filter_block_may(block.as_ptr(), block.len(), offset, hash(key)) == 1 }
}

pub fn data_block(interval: usize, pairs: &[Pair]) -> Vec<u8> {
    let size = pairs.iter().map(|(k, v)| k.len() + v.len() + 40).sum::<usize>() + 40;
    let mut restarts = vec![0u32; pairs.len() + 1];
    written(size, |o, n| unsafe {
        let mut b = salevoni_block_start(interval);
        for (k, v) in pairs {
            let a = salevoni_block_add(b, o, n, restarts.as_mut_ptr(), restarts.len(), k.as_ptr(), k.len(), v.as_ptr(), v.len());
            assert_eq!(a.answer, 0);
            b = a.block;
        }
        salevoni_block_finish(b, o, n, restarts.as_ptr(), restarts.len())
    })
}

/// Of a data block: 0 or 10.
pub fn block_check(s: &[u8]) -> u32 {
    unsafe { salevoni_block_check(s.as_ptr(), s.len(), 0) }
}

fn row(s: &[u8], key: &[u8], r: Row) -> Option<Pair> {
    assert!(r.answer == 0 || r.answer == 100);
    (r.answer == 0).then(|| (key[..r.key_len].to_vec(), s[r.value_at..r.value_at + r.value_len].to_vec()))
}

pub fn block_walk(s: &[u8]) -> Vec<Pair> {
    let mut key = [0; 1032];
    let mut all = vec![];
    let mut r = unsafe { salevoni_block_first(s.as_ptr(), s.len(), key.as_mut_ptr(), key.len()) };
    while let Some(pair) = row(s, &key, r) {
        all.push(pair);
        r = unsafe { salevoni_block_after(s.as_ptr(), s.len(), r.start, key.as_mut_ptr(), key.len()) };
    }
    all
}

pub fn block_seek(s: &[u8], word: &[u8], edition: u64) -> Option<Pair> {
    let mut key = [0; 1032];
    let r = unsafe { salevoni_block_seek(s.as_ptr(), s.len(), word.as_ptr(), word.len(), edition, key.as_mut_ptr(), key.len()) };
    row(s, &key, r)
}
