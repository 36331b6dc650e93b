//! The table of the two orders.

use super::cases::How::By;
use super::{named, Told};
use crate::plan::Lowering::Nothing;
use crate::plan::Recycling::{Intersection, Reset};
use crate::sheets::orders::*;

const ORDERS: &str = r#"-- Sheets that tell the two orders apart, the choice between them, and the top-down order from orders that look like it. Made by the
-- second program: `reference tables`.
use Rattle.std.specs.Prelude.{◌^◌, List, [], ◌∷◌, T, None}
use Rattle.clause.specs.Clauses.{Literals, literals}
use Rattle.sheet.specs.declared.edition.Edition.TheVariants.{Narrow, Wide}
use Rattle.sheet.specs.Records.{given, step, Record, node, drop}
use Rattle.sheet.specs.Fields.{sheet_bytes}
use Rattle.press_spec.specs.declared.Recycling.TheVariants.{Reset, Intersection}
use Rattle.press_spec.specs.declared.Order.TheVariants.{BottomUp, TopDown}
use Rattle.press_spec.specs.Plans.{plan}
use Rattle.demands.specs.Cases.{Case, accepts, all_right}
"#;

pub fn orders() -> String {
    let by = |recycling| vec![By(recycling, Nothing)];
    let twice = (
        "by the reset, a node that one step names twice counts once",
        named_twice(),
    );
    let told = ordered().map(|told| (told, by(Intersection)));
    let told: Vec<_> = told.into_iter().chain([(twice, by(Reset))]).collect();
    named(ORDERS, "orders", "Orders", &told)
}

/// Sheets that tell the orders apart.
fn ordered() -> [Told; 6] {
    [
        (
            "a chain whose left premises are given: six nodes are held bottom-up, and three top-down. Ties go to the smallest number",
            left_givens(),
        ),
        ("the same on variables of both halves", high_left_givens()),
        (
            "equal peaks: the old order, though the new one places the nodes otherwise",
            equal_peaks(),
        ),
        (
            "the top-down order has the larger peak, and the old one is emitted",
            early_given(),
        ),
        (
            "parents that are still needed do not count: node 2 goes before node 3",
            still_needed(),
        ),
        (
            "after node 6 two nodes can be dropped, after node 5 one",
            two_dropped(),
        ),
    ]
}
