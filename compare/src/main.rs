//! The original's text and our library, given the same inputs.
#![allow(dead_code, unexpected_cfgs, mismatched_lifetime_syntaxes, clippy::all)]

#[path = "../text/infolog.rs"]
#[macro_use]
pub mod infolog;
mod block {
    include!("../text/block.rs");
    /// Where an iterator stands.
    pub mod inside {
        use super::*;
        /// Where its entry starts, and where that entry's value does.
        pub fn place(it: &BlockIter) -> (usize, usize) {
            (it.current_entry_offset, it.val_offset)
        }
    }
}
#[path = "../text/block_builder.rs"]
mod block_builder;
#[path = "../text/blockhandle.rs"]
mod blockhandle;
#[path = "../text/cache.rs"]
mod cache;
#[path = "../text/cmp.rs"]
mod cmp;
#[path = "../text/compressor.rs"]
pub mod compressor;
#[path = "../text/crc.rs"]
mod crc;
#[path = "../text/env.rs"]
pub mod env;
#[path = "../text/env_common.rs"]
mod env_common;
#[path = "../text/error.rs"]
mod error;
mod filter {
    include!("../text/filter.rs");
    /// The private parts of a Bloom policy.
    pub mod inside {
        use super::*;
        pub fn hash(data: &[u8]) -> u32 {
            BloomPolicy::new(10).bloom_hash(data)
        }
        pub fn probes(bits: u32) -> u32 {
            BloomPolicy::new(bits).k
        }
    }
}
#[path = "../text/filter_block.rs"]
mod filter_block;
#[path = "../text/key_types.rs"]
mod key_types;
#[path = "../text/log.rs"]
mod log;
#[path = "../text/mem_env.rs"]
mod mem_env;
#[path = "../text/options.rs"]
mod options;
#[path = "../text/table_block.rs"]
mod table_block;
#[path = "../text/table_builder.rs"]
mod table_builder;
mod table_reader {
    include!("../text/table_reader.rs");
    /// Where an iterator stands.
    pub mod inside {
        use super::*;
        /// Where its index entry starts in the index, where its entry does in its block, and where that entry's value does in the table.
        pub fn place(it: &TableIterator) -> (usize, usize, usize) {
            let (entry, value) = crate::block::inside::place(it.current_block.as_ref().unwrap());
            (crate::block::inside::place(&it.index_block).0, entry, it.current_block_off + value)
        }
    }
}
#[path = "../text/types.rs"]
mod types;
use error::{Result, Status, StatusCode};

mod base;
mod list;
mod listed;
mod measure;
mod ours;
mod pieces;
mod rules;
mod run;
mod tables;
mod text;

/// Without words everything is compared; `list FOLDER` writes a list of cases with the text's answers.
fn main() {
    if std::env::args().nth(1).as_deref() == Some("measure") {
        return measure::run();
    }
    base::silence();
    let words: Vec<String> = std::env::args().skip(1).collect();
    let words: Vec<&str> = words.iter().map(|w| w.as_str()).collect();
    let done = match words[..] {
        [] => run::run(),
        ["list", folder] => list::write(folder),
        _ => {
            eprintln!("compare: 'list FOLDER', or nothing.");
            false
        }
    };
    if !done {
        std::process::exit(1);
    }
}
