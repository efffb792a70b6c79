//! OURS, not the original's: the least that the original's files ask of the parts of grovedb that are not at hand.

use crate::query_item::{intersect::RangeSet, QueryItem};

/// For the error types of grovedb-query and of grovedb: the variants that are asked for.
pub mod error {
    #[derive(Debug)]
    #[allow(dead_code)]
    pub enum Error {
        InvalidInput(&'static str),
        InvalidOperation(&'static str),
    }
}

/// For `grovedb_merk::proofs::query`, where position_intervals.rs finds QueryItem.
pub mod proofs {
    pub mod query {
        pub use crate::query_item::QueryItem;
    }
}

/// For grovedb-query's `Query`: insert.rs uses its items alone.
pub struct Query {
    pub items: Vec<QueryItem>,
}

/// For what query_item/merge.rs has. It follows document 01: from the smaller start to the larger end, converted. So no answer
/// of `insert_item` in which items merge is the original's.
impl QueryItem {
    pub fn merge_assign(&mut self, other: &Self) {
        let (new, old) = (self.to_range_set(), other.to_range_set());
        let merged = RangeSet {
            start: new.start.min(old.start),
            end: new.end.max(old.end),
        };
        if let Some(item) = merged.to_query_item() {
            *self = item;
        }
    }
}

/// For the text of an item, which nothing compares.
pub fn hex_to_ascii(key: &[u8]) -> String {
    crate::hexadecimal(key)
}
