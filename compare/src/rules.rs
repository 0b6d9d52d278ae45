//! The rules, read plainly, as far as the two sides have to be told apart: keys, separators, blocks and handles.
use std::cmp::Ordering;

pub const EDITION_MAX: u64 = (1 << 56) - 1;

#[derive(Clone, Debug, PartialEq)]
pub struct Item {
    pub word: Vec<u8>,
    pub edition: u64,
    pub kind: u8,
    pub value: Vec<u8>,
}

impl Item {
    pub fn key(&self) -> Vec<u8> {
        internal(&self.word, self.edition, self.kind)
    }
}

pub fn internal(word: &[u8], edition: u64, kind: u8) -> Vec<u8> {
    let mut key = word.to_vec();
    key.extend((edition * 256 + kind as u64).to_le_bytes());
    key
}

pub fn word(key: &[u8]) -> &[u8] {
    &key[..key.len() - 8]
}

pub fn tag(key: &[u8]) -> u64 {
    u64::from_le_bytes(key[key.len() - 8..].try_into().unwrap())
}

pub fn edition(key: &[u8]) -> u64 {
    tag(key) >> 8
}

pub fn order_points(a: (&[u8], u64), b: (&[u8], u64)) -> Ordering {
    a.0.cmp(b.0).then(b.1.cmp(&a.1))
}

pub fn order(a: &[u8], b: &[u8]) -> Ordering {
    order_points((word(a), edition(a)), (word(b), edition(b)))
}

/// What `find_shortest_sep` gives for a below b, a not empty.
pub fn shortest(a: &[u8], b: &[u8]) -> Vec<u8> {
    for i in 0..a.len().min(b.len()) {
        if (a[i] as u32) + 1 < b[i] as u32 {
            let mut s = a[..=i].to_vec();
            s[i] += 1;
            return s;
        }
    }
    if let Some(i) = a.iter().rposition(|&c| c < 255) {
        let mut s = a.to_vec();
        s[i] += 1;
        if s.as_slice() < b {
            return s;
        }
    }
    let mut s = a.to_vec();
    s.push(0);
    s
}

pub fn user_separator(a: &[u8], b: &[u8]) -> Vec<u8> {
    if a.is_empty() || a >= b {
        return a.to_vec();
    }
    let s = shortest(a, b);
    if s.as_slice() < b {
        s
    } else {
        a.to_vec()
    }
}

/// The index key between two keys, by the rules.
pub fn separator(a: &[u8], b: &[u8]) -> Vec<u8> {
    let s = user_separator(word(a), word(b));
    if s.len() < a.len() - 8 && s.as_slice() > word(a) {
        internal(&s, EDITION_MAX, 1)
    } else {
        a.to_vec()
    }
}

pub fn successor(a: &[u8]) -> Vec<u8> {
    match a.iter().position(|&c| c != 255) {
        Some(i) => {
            let mut s = a[..=i].to_vec();
            s[i] += 1;
            s
        }
        None => [a, &[255]].concat(),
    }
}

/// The index key that the text writes there; a's word is not empty and a is below b. Without b, the last one.
pub fn text_separator(a: &[u8], b: Option<&[u8]>) -> Vec<u8> {
    let next = b.map_or_else(|| successor(word(a)), |b| word(b).to_vec());
    let s = if word(a) == next.as_slice() { next } else { shortest(word(a), &next) };
    let shorter = s.len() < a.len() - 8 && s.as_slice() > word(a);
    internal(&s, if shorter { EDITION_MAX } else { edition(a) }, 1)
}

// ---- reading of well-formed bytes

pub fn varint(s: &[u8], at: &mut usize) -> usize {
    let (mut value, mut shift) = (0usize, 0);
    loop {
        let b = s[*at];
        *at += 1;
        value |= ((b & 127) as usize) << shift;
        shift += 7;
        if b < 128 {
            return value;
        }
    }
}

pub fn fixed(s: &[u8], at: usize) -> usize {
    u32::from_le_bytes(s[at..at + 4].try_into().unwrap()) as usize
}

#[derive(Clone, Copy, Debug, PartialEq)]
pub struct Handle {
    pub offset: usize,
    pub size: usize,
}

pub fn handle(s: &[u8], at: &mut usize) -> Handle {
    Handle { offset: varint(s, at), size: varint(s, at) }
}

pub struct Parsed {
    pub pairs: Vec<(Vec<u8>, Vec<u8>)>,
    pub starts: Vec<usize>,
    pub restarts: Vec<usize>,
}

pub fn block(s: &[u8]) -> Parsed {
    let n = fixed(s, s.len() - 4);
    let end = s.len() - 4 - 4 * n;
    let mut p = Parsed { pairs: vec![], starts: vec![], restarts: (0..n).map(|i| fixed(s, end + 4 * i)).collect() };
    let (mut at, mut key) = (0, vec![]);
    while at < end {
        p.starts.push(at);
        let (shared, fresh, size) = (varint(s, &mut at), varint(s, &mut at), varint(s, &mut at));
        key.truncate(shared);
        key.extend_from_slice(&s[at..at + fresh]);
        p.pairs.push((key.clone(), s[at + fresh..at + fresh + size].to_vec()));
        at += fresh + size;
    }
    p
}

/// Both handles of a footer, and where they end in it.
pub fn footer(t: &[u8]) -> (Handle, Handle, usize) {
    let s = &t[t.len() - 48..];
    let mut at = 0;
    (handle(s, &mut at), handle(s, &mut at), at)
}

pub fn part<'a>(t: &'a [u8], h: Handle) -> &'a [u8] {
    &t[h.offset..h.offset + h.size]
}

pub fn index(t: &[u8]) -> Vec<(Vec<u8>, Handle)> {
    let parsed = block(part(t, footer(t).1));
    parsed
        .pairs
        .into_iter()
        .map(|(key, value)| {
            let mut at = 0;
            let h = handle(&value, &mut at);
            assert_eq!(at, value.len());
            (key, h)
        })
        .collect()
}
