//! The known departures of the original's lists, D6 to D8 and D19 in docs/DIFFERENCES.md: what it lists itself, held against ours. Each counts as
//! listed only where the original departs in the way that is known. What holds no key (D19) is taken out of its lists before D6 to D8 are looked for.

use crate::{
    algebra::{paper, rust},
    items::Words,
    many::{items, List},
    query_item::QueryItem,
    table::{Against, Row},
};

/// Products of counts up to this are tried: the original's theirs-only of n and m items may have n · m.
const MOST_PAIRS: usize = 1_600;

pub struct Departures {
    unconverted: Row,
    passed_on: Row,
    separately: Row,
    keyless: [Row; 2],
}

impl Departures {
    pub fn new() -> Self {
        Self {
            unconverted: Row::again("D6 ours only, not converted"),
            passed_on: Row::again("D7 theirs only of one of ours, not converted"),
            separately: Row::again("D8 theirs only of none or several of ours"),
            keyless: [
                Row::again("D19 shared, with what holds no key"),
                Row::again("D19 ours only, with what holds no key"),
            ],
        }
    }

    pub fn rows(self) -> Vec<Row> {
        let mut rows = vec![self.unconverted, self.passed_on, self.separately];
        rows.extend(self.keyless);
        rows
    }

    /// Shared, ours only and theirs only: as the original lists them, and as we wrote them.
    pub fn hold(
        &mut self,
        input: impl Fn() -> String,
        [ours, theirs]: [&List; 2],
        [rust_shared, rust_ours, rust_theirs]: &[Vec<QueryItem>; 3],
        [shared, ours_only, theirs_only]: &[Vec<QueryItem>; 3],
        pool: &[u8],
    ) {
        // what holds no key is listed like any other
        let lists = [
            (shared, rust_shared.clone()),
            (ours_only, rust::converted(rust_ours)),
        ];
        for (row, (ours, rust)) in self.keyless.iter_mut().zip(lists) {
            let listed = rust::keyed(&rust) == *ours;
            row.hold(&input, Against::rust(ours, &rust, listed));
        }
        // with theirs empty, ours comes back as it is
        let listed = theirs.items.is_empty() && *rust_ours == ours.rust;
        self.unconverted.hold(
            &input,
            Against::rust(ours_only, &rust::keyed(rust_ours), listed),
        );
        let rust_theirs = &rust::keyed(rust_theirs);
        if ours.items.len() == 1 {
            // once our item is used up, theirs are passed on as they are
            let listed = rust::converted(rust_theirs) == *theirs_only;
            self.passed_on
                .hold(&input, Against::rust(theirs_only, rust_theirs, listed));
        } else if ours.items.len() * theirs.items.len() <= MOST_PAIRS {
            // theirs is run through each of our items separately
            let converted = rust::converted(rust_theirs);
            let separately = || {
                let only = |x: &Words| paper::only(&theirs.items, &[*x], pool);
                let pieces: Vec<Words> = ours.items.iter().flat_map(only).collect();
                rust::keyed(&items(&pieces.concat(), pool))
            };
            let listed = converted != *theirs_only && converted == separately();
            self.separately
                .hold(&input, Against::rust(theirs_only, &converted, listed));
        }
    }
}
