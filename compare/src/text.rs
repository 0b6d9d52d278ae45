//! The original's side: tables and blocks built and read by the text.
use crate::base::caught;
use crate::block::Block;
use crate::block_builder::BlockBuilder;
use crate::cache::Cache;
use crate::cmp::{DefaultCmp, InternalKeyCmp};
use crate::filter::{BloomPolicy, BoxedFilterPolicy, NoFilterPolicy};
use crate::options::Options;
use crate::rules::Item;
use crate::table_builder::TableBuilder;
use crate::table_reader::Table;
use crate::types::{share, LdbIterator};
use std::rc::Rc;

pub fn policy(bits: Option<u32>) -> BoxedFilterPolicy {
    match bits {
        None => Rc::new(Box::new(NoFilterPolicy::new())),
        Some(b) => Rc::new(Box::new(BloomPolicy::new(b))),
    }
}

pub fn options(block_size: usize, interval: usize, bits: Option<u32>) -> Options {
    Options { block_size, block_restart_interval: interval, filter_policy: policy(bits), ..Options::default() }
}

/// The bytes written, and the file in which the text panicked, if it did.
pub fn table(opt: &Options, items: &[Item]) -> (Vec<u8>, Result<usize, String>) {
    let mut out = vec![];
    let done = caught(|| {
        let mut b = TableBuilder::new(opt.clone(), &mut out);
        for i in items {
            b.add(&i.key(), &i.value).unwrap();
        }
        b.finish().unwrap()
    });
    (out, done)
}

pub fn reader(opt: &Options, t: &[u8]) -> Table {
    let n = t.len();
    Table::new(opt.clone(), share(Cache::new(64)), Rc::new(Box::new(t.to_vec())), n).unwrap()
}

pub fn walk(mut it: impl LdbIterator) -> Vec<(Vec<u8>, Vec<u8>)> {
    let mut all = vec![];
    while let Some(pair) = it.next() {
        all.push(pair);
    }
    all
}

/// Options with the order of internal keys.
pub fn by_points(mut opt: Options) -> Options {
    opt.cmp = Rc::new(Box::new(InternalKeyCmp(Rc::new(Box::new(DefaultCmp)))));
    opt
}

pub fn data_block(interval: usize, pairs: &[(Vec<u8>, Vec<u8>)]) -> Vec<u8> {
    let mut b = BlockBuilder::new(by_points(options(4096, interval, None)));
    for (k, v) in pairs {
        b.add(k, v);
    }
    b.finish().to_vec()
}

pub fn block(s: &[u8]) -> Block {
    Block::new(by_points(options(4096, 16, None)), s.to_vec().into())
}
