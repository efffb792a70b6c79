//! D15 to D18 in docs/DIFFERENCES.md: each input that stands there, on both sides, and what stands there of both.

use crate::{
    calls::{wide_lent, WIDE_MARK},
    fernsponge::{self, Report},
    items::item_of,
    position_intervals::PositionIntervals,
    positions::{report, rust},
    table::{Against, Row},
};

pub fn run() -> Vec<Row> {
    vec![repeated(), unsorted(), crossing(), wrapped()]
}

fn repeated() -> Row {
    let mut row = Row::new("D15 repeated proved positions");
    let all_of_them = report(3, &[7, 7, 7]);
    // 8, side 1, index 1
    extra(
        &mut row,
        &[100, 101],
        &[7, 7, 7],
        8 + 256 + 65_536,
        all_of_them,
    );
    row
}

fn unsorted() -> Row {
    let mut row = Row::new("D16 unsorted proved positions");
    let proved: Vec<u64> = (1..=16).chain([0]).collect();
    let first_sixteen = report(17, &proved[..16]);
    // 8, side 1, index 16
    extra(&mut row, &[], &proved, 8 + 256 + 16 * 65_536, first_sixteen);
    row
}

fn extra(row: &mut Row, intervals: &[u64], proved: &[u64], refused: u64, stated: Report) {
    let mut ours = report(WIDE_MARK, &[]);
    let ours = match fernsponge::extra_in(intervals, proved, &mut ours) {
        0 => Ok(ours),
        returned => Err(returned),
    };
    let rust = Ok(rust::extra_in(&rust::intervals(intervals), proved));
    row.hold(
        || format!("{proved:?} against {intervals:?}"),
        Against::differences(ours, rust, [Err(refused), Ok(stated)]),
    );
}

fn crossing() -> Row {
    let mut row = Row::new("D17 spans out of order");
    // 8, side 1, and the index
    let refused = |index: u64| 8 + 256 + index * 65_536;
    for (intervals, spans, refused, stated) in [
        ([0, 3], &[[2, 1]][..], refused(0), report(4, &[0, 1, 1, 2])),
        ([2, 3], &[[0, 3], [1, 2]], refused(1), report(1, &[2])),
        ([0, 2], &[[5, 9], [0, 2]], refused(1), report(2, &[0, 1])),
    ] {
        let mut ours = report(WIDE_MARK, &[]);
        let ours = match fernsponge::missing_from_spans(&intervals, spans, &mut ours) {
            0 => Ok(ours),
            returned => Err(returned),
        };
        let rust = Ok(rust::missing_from_spans(
            &rust::intervals(&intervals),
            spans,
        ));
        row.hold(
            || format!("{spans:?} against {intervals:?}"),
            Against::differences(ours, rust, [Err(refused), Ok(stated)]),
        );
    }
    row
}

/// The original has a text for each wrapper, and we one number: 5, side 0, index 0.
fn wrapped() -> Row {
    let mut row = Row::new("D18 wrapped items in a position query");
    let texts = [
        "AggregateCountOnRange is only supported on provable count trees, not on this tree type",
        "AggregateSumOnRange is only supported on provable sum trees, not on this tree type",
        "AggregateCountAndSumOnRange is only supported on ProvableCountProvableSumTree, not on this tree type",
    ];
    for (wrapper, text) in (1..).zip(texts) {
        let (pool, words) = ([0; 8], [0, wrapper, 0, 8, 0, 0]);
        let mut out = wide_lent(2);
        let [mut pairs, mut total] = [WIDE_MARK; 2];
        let returned =
            fernsponge::from_query_items(&pool, &words, 1, &mut out, &mut pairs, &mut total);
        let item = item_of(words, &pool).expect("the words are an item's");
        let rust = match PositionIntervals::from_query_items(&[item], 1) {
            Ok(intervals) => format!("{intervals:?}"),
            Err(error) => rust::text(&error).to_string(),
        };
        row.hold(
            || format!("{words:?}"),
            Against::differences(
                format!("refused {returned}"),
                rust,
                ["refused 5".to_string(), text.to_string()],
            ),
        );
    }
    row
}
