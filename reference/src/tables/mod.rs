//! The tables of worked cases that the definitions are to compute
//! (crates/demands/specs): the sheets of `sheets`, and what the press and the
//! replay of this program make of them.

mod cases;
mod orders;
mod terms;

pub use orders::orders;

use crate::edition::Edition::Wide;
use crate::plan::Lowering::{Nothing, Units, Univalents};
use crate::plan::Recycling::{self, Intersection, Reset};
use crate::sheets::lowering::*;
use crate::sheets::recycling::*;
use crate::sheets::starred::*;
use crate::sheets::telling::*;
use crate::sheets::univalents::*;
use crate::sheets::wide::*;
use crate::sheets::{sheet, Worked};
use cases::How::{self, By, Either};
use cases::{accepts, presses, refuses, replays, replays_other, replays_pressed};
use terms::{bytes_of, define, literals_of, record, records_of, rules_of, table, table_by_either};

const STARRED: &str = r#"-- "Starred sheets are one table under a single proved statement." Made by the second program: `reference tables`.
use Rattle.std.specs.Prelude.{ℕ, ◌^◌, List, [], ◌∷◌, ◌++◌, T, replicate, None}
use Rattle.clause.specs.Clauses.{Literals, literals}
use Rattle.sheet.specs.declared.edition.Edition.TheVariants.{Narrow}
use Rattle.sheet.specs.Records.{given, step, Record, node, drop}
use Rattle.sheet.specs.Fields.{sheet_bytes}
use Rattle.press_spec.specs.declared.Recycling.{Recycling}
use Rattle.press_spec.specs.declared.Order.TheVariants.{BottomUp}
use Rattle.press_spec.specs.Plans.{plan}
use Rattle.demands.specs.Cases.{Case, accepts, refuses, replayed, all_right}
"#;

const TELLING: &str = r#"-- Cases that tell apart what the starred sheets do not. Made by the second program: `reference tables`.
use Rattle.std.specs.Prelude.{List, [], ◌∷◌, T, set, None}
use Rattle.clause.specs.Clauses.{Literals, literals}
use Rattle.sheet.specs.declared.edition.Edition.TheVariants.{Narrow}
use Rattle.sheet.specs.Records.{given, step, Record, node, drop}
use Rattle.sheet.specs.Fields.{sheet_bytes}
use Rattle.press_spec.specs.declared.Recycling.{Recycling}
use Rattle.press_spec.specs.declared.Order.TheVariants.{BottomUp, TopDown}
use Rattle.press_spec.specs.Plans.{plan}
use Rattle.demands.specs.Cases.{Case, presses, replays, accepts, refuses, replayed, rule_table, junk, dirty, all_right}
use Rattle.demands.specs.Starred.{pair_rules, pair, irregular_rules, irregular}
"#;

const WIDE: &str = r#"-- Cases of the wide edition, most of them on variables that the narrow one does not have. Made by the second program: `reference tables`.
use Rattle.std.specs.Prelude.{◌+◌, ◌^◌, List, [], ◌∷◌, T, None}
use Rattle.clause.specs.Clauses.{Literals, literals}
use Rattle.sheet.specs.declared.edition.Edition.TheVariants.{Narrow, Wide}
use Rattle.sheet.specs.Records.{given, step, Record, node, drop}
use Rattle.sheet.specs.Fields.{sheet_bytes}
use Rattle.press_spec.specs.declared.Recycling.{Recycling}
use Rattle.press_spec.specs.declared.Order.TheVariants.{BottomUp}
use Rattle.press_spec.specs.Plans.{plan}
use Rattle.demands.specs.Cases.{Case, presses, replays, accepts, refuses, replayed, rule_table, junk, clean, all_right}
use Rattle.demands.specs.Starred.{lone_rules, lone, lone_pressed}
"#;

const RECYCLINGS: &str = r#"-- Sheets that the recyclings press apart, and that tell the intersection from passes that look like it. Made by the second program:
-- `reference tables`.
use Rattle.std.specs.Prelude.{List, [], ◌∷◌, T, None}
use Rattle.clause.specs.Clauses.{Literals, literals}
use Rattle.sheet.specs.declared.edition.Edition.TheVariants.{Narrow}
use Rattle.sheet.specs.Records.{given, step, Record, node, drop}
use Rattle.sheet.specs.Fields.{sheet_bytes}
use Rattle.press_spec.specs.declared.Recycling.TheVariants.{Reset, Intersection}
use Rattle.press_spec.specs.declared.Order.TheVariants.{BottomUp}
use Rattle.press_spec.specs.Plans.{plan}
use Rattle.demands.specs.Cases.{Case, accepts, all_right}
"#;

const LOWERINGS: &str = r#"-- Sheets that tell lowering the units from passes that look like it. Made by the second program: `reference tables`.
use Rattle.std.specs.Prelude.{◌+◌, ◌^◌, List, [], ◌∷◌, T, Some}
use Rattle.clause.specs.Clauses.{Literals, literals}
use Rattle.sheet.specs.declared.edition.Edition.TheVariants.{Narrow, Wide}
use Rattle.sheet.specs.Records.{given, step, Record, node, drop}
use Rattle.sheet.specs.Fields.{sheet_bytes}
use Rattle.press_spec.specs.declared.Recycling.TheVariants.{Reset, Intersection}
use Rattle.press_spec.specs.declared.Lowerable.TheVariants.{Units}
use Rattle.press_spec.specs.declared.Order.TheVariants.{BottomUp, TopDown}
use Rattle.press_spec.specs.Plans.{plan}
use Rattle.demands.specs.Cases.{Case, accepts, all_right}
"#;

const UNIVALENTS: &str = r#"-- Sheets that tell lowering the univalents from lowering the units and from passes that look like it. Made by the second program:
-- `reference tables`.
use Rattle.std.specs.Prelude.{◌+◌, ◌^◌, List, [], ◌∷◌, T, Some}
use Rattle.clause.specs.Clauses.{Literals, literals}
use Rattle.sheet.specs.declared.edition.Edition.TheVariants.{Narrow, Wide}
use Rattle.sheet.specs.Records.{given, step, Record, node, drop}
use Rattle.sheet.specs.Fields.{sheet_bytes}
use Rattle.press_spec.specs.declared.Recycling.TheVariants.{Intersection}
use Rattle.press_spec.specs.declared.Lowerable.TheVariants.{Univalents}
use Rattle.press_spec.specs.declared.Order.TheVariants.{BottomUp}
use Rattle.press_spec.specs.Plans.{plan}
use Rattle.demands.specs.Cases.{Case, accepts, all_right}
use Rattle.demands.specs.Lowerings.{opposites, opposites_rules, stays, stays_rules, fewer, fewer_rules, fewer_lowered}
"#;

pub fn starred() -> String {
    let mut page = STARRED.to_string();
    for worked in [lone(), pair(), irregular(), twice(), pivot()] {
        page += &rules_of(&worked);
        page += &records_of("", worked.name, &worked.records);
        let out = Either.pressed(&worked);
        page += &match (worked.name, out) {
            // as document 01 prints them, eight bytes, then eight, then eight
            ("pair", Some(out)) => {
                bytes_of(worked.edition, "pair_pressed", &sheet(worked.edition, &out))
            }
            (name, Some(out)) => records_of("", &format!("{name}_pressed"), &out),
            (_, None) => String::new(),
        };
    }
    for worked in [early_drop(), gone(), pivot_64(), forward()] {
        page += &records_of("", worked.name, &worked.records);
    }
    let mut cases = vec![];
    cases.extend([lone(), pair(), irregular()].map(|worked| accepts(Either, &worked)));
    cases.push(refuses(&twice(), "twice_rules"));
    cases.push(replays(&twice(), "twice_rules", 2));
    cases.extend([3, 2, 0].map(|slots| replays_pressed(&pair(), slots)));
    cases.extend([
        replays(&early_drop(), "pair_rules", 2),
        replays(&gone(), "lone_rules", 1),
        accepts(Either, &pivot()),
        replays(&pivot(), "pivot_rules", 3),
        refuses(&pivot_64(), "pivot_rules"),
        replays(&pivot_64(), "pivot_rules", 3),
        refuses(&forward(), "pair_rules"),
        replays(&forward(), "pair_rules", 3),
    ]);
    page + &table_by_either("starred", "Starred", &cases)
}

/// A worked sheet, and what it is to tell apart.
type Told = (&'static str, Worked);

/// The sheet, its rules, and what the press writes of it in each of these ways.
fn told_of((why, worked): &Told, ways: &[How]) -> String {
    let text = records_of(why, worked.name, &worked.records) + &rules_of(worked);
    let out = |how: &How| how.pressed(worked).expect("the press takes it");
    let named = ways.iter().map(|how| (how.pressed_name(worked), out(how)));
    let mut named: Vec<_> = named.collect();
    named.dedup();
    let named = named.iter().map(|(name, out)| records_of("", name, out));
    text + &named.collect::<String>()
}

pub fn telling() -> String {
    let mut page = TELLING.to_string();
    for told in &taken() {
        page += &told_of(told, &[Either]);
    }
    let both_ways = both_ways_in_full_row();
    let in_full_row = (
        "a given clause that holds a variable both ways, in a full row: 17, not 15",
        both_ways.clone(),
    );
    for (why, worked) in refused().iter().chain([&in_full_row]) {
        page += &records_of(why, worked.name, &worked.records);
    }
    page += &rules_of(&both_ways);
    for (why, worked) in &wrong() {
        let body = format!(" set irregular 2 ({})", record(&worked.records[2]));
        page += &define(why, worked.name, "List Record", &body);
    }
    page += &format!(
        "\nunfoldable pub one_rule : List Literals\none_rule = {}\n",
        literals_of(&["+0"])
    );
    page + &table_by_either("telling", "Telling", &telling_cases())
}

/// Sheets that the press takes.
fn taken() -> [Told; 8] {
    [
        (
            "the right premise has more uses, and goes first",
            heavier_right(),
        ),
        (
            "the right edge of a step is cut, and the kept parent is not node 0",
            right_cut(),
        ),
        ("the left edge of a step is cut", left_cut()),
        (
            "both stand-ins lack their side of the pivot: the left is taken",
            both_lack(),
        ),
        (
            "only the second trim brings the uses down so that the order changes",
            second_trim(),
        ),
        (
            "what one of two uses hands over would cut the node: not carried, not joined, not the first or the last one's",
            shared_reset(),
        ),
        (
            "the conclusion holds the last pivot both ways: -p is tried first",
            either_way(),
        ),
        (
            "a line that no record names holds a variable both ways",
            both_ways_unused(),
        ),
    ]
}

/// Sheets that are refused against the one rule {+0}.
fn refused() -> [Told; 4] {
    [
        ("a drop record is an unknown kind for the press, also where a byte of it must be zero and isn't", bad_drop()),
        ("a given record that names a line beyond the table, in a full row: its own number, not 15", bad_in_full_row()),
        ("the left parent isn't earlier and the right one was dropped: 9, not 10", both_names()),
        ("a given clause that holds a variable both ways and differs from its line: 14, not 17", both_ways_differs()),
    ]
}

/// *irregular* with another clause in record 2.
fn wrong() -> [Told; 3] {
    [
        ("a literal of the result is lost: 12", lost()),
        (
            "a literal is added to the result: 18, also in a full row",
            added(),
        ),
        ("one is lost and one is added: 12", lost_and_added()),
    ]
}

fn telling_cases() -> Vec<String> {
    let both_ways = both_ways_in_full_row();
    let mut cases: Vec<String> = taken()
        .iter()
        .map(|(_, worked)| accepts(Either, worked))
        .collect();
    cases.push(presses(&bad_drop(), "one_rule", 72, 1));
    for (_, worked) in &refused() {
        cases.push(replays(worked, "one_rule", 1));
    }
    for (_, worked) in &wrong() {
        cases.push(refuses(worked, "irregular_rules"));
        cases.push(replays(worked, "irregular_rules", 2));
    }
    cases.extend([
        refuses(&both_ways_differs(), "one_rule"),
        refuses(&both_ways, "both_ways_in_full_row_rules"),
        replays(&both_ways, "both_ways_in_full_row_rules", 1),
        replays(&both_ways_unused(), "both_ways_unused_rules", 3),
        // derived clauses may hold a variable both ways
        replays(&either_way(), "either_way_rules", 7),
        presses(&pair(), "pair_rules", 119, 2),
        presses(&pair(), "pair_rules", 120, 1),
        "presses (plan Narrow how None) [] (rule_table Narrow pair_rules) 0 0 (2 ∷ 0 ∷ []) [] []"
            .to_string(),
        "replays Narrow (1 ∷ []) (1 ∷ []) 2 (1 ∷ 0 ∷ []) (dirty 2)".to_string(),
    ]);
    cases
}

pub fn wide() -> String {
    let mut page = WIDE.to_string();
    for told in &wide_taken() {
        page += &told_of(told, &[Either]);
    }
    for (why, worked, _) in &wide_refused() {
        page += &records_of(why, worked.name, &worked.records);
    }
    for worked in [high_given(), high_both_ways()] {
        page += &rules_of(&worked);
    }
    page + &table_by_either("wide", "WideSheets", &wide_cases())
}

/// Wide sheets that the press takes.
fn wide_taken() -> [Told; 5] {
    [
        ("the last pivot", pivot_127()),
        ("*irregular*, with two variables over 63", high_irregular()),
        ("literals over 63 are kept", high_kept()),
        (
            "two variables of one place in their halves, each one way",
            high_one_way(),
        ),
        (
            "bytes that both editions take, with other answers",
            either_edition(),
        ),
    ]
}

/// Wide sheets that are refused, and the rules that they name.
fn wide_refused() -> [(&'static str, Worked, &'static str); 6] {
    [
        ("a pivot of 128: 8", pivot_128(), "pivot127_rules"),
        (
            "a literal over 63 is lost: 12",
            high_lost(),
            "high_kept_rules",
        ),
        (
            "a literal over 63 is added: 18",
            high_added(),
            "high_kept_rules",
        ),
        (
            "one moves to the same place of the low half: 12",
            high_moved(),
            "high_kept_rules",
        ),
        (
            "a given clause that differs from its line over 63 only: 14",
            high_given(),
            "high_given_rules",
        ),
        (
            "a given clause that holds a variable over 63 both ways: 17",
            high_both_ways(),
            "high_both_ways_rules",
        ),
    ]
}

fn wide_cases() -> Vec<String> {
    let lone = lone().in_edition(Wide);
    let mut cases: Vec<String> = wide_taken()
        .iter()
        .map(|(_, worked)| accepts(Either, worked))
        .collect();
    for (_, worked, rules) in &wide_refused() {
        cases.push(refuses(worked, rules));
        cases.push(replays(worked, rules, 3));
    }
    for worked in [pivot_127(), high_irregular()] {
        // with as many slots as the peak, and with one less
        cases.extend([3, 2].map(|slots| replays_pressed(&worked, slots)));
    }
    cases.extend([
        // 80N-40 bytes of room, and one less
        accepts(Either, &lone),
        presses(&lone, "lone_rules", 39, 1),
        presses(&high_irregular(), "high_irregular_rules", 679, 5),
        replays(&either_edition(), "either_edition_rules", 5),
        replays_other(&either_edition(), 5),
    ]);
    cases
}

pub fn recyclings() -> String {
    let ways = Recycling::ALL.map(|of| By(of, Nothing));
    let told = parting().map(|told| (told, ways.to_vec()));
    named(RECYCLINGS, "recyclings", "Recyclings", &told)
}

/// A table of sheets, each of which is pressed in ways that are named.
fn named(head: &str, name: &str, statement: &str, sheets: &[(Told, Vec<How>)]) -> String {
    let mut page = head.to_string();
    let mut cases = vec![];
    for (told, ways) in sheets {
        page += &told_of(told, ways);
        cases.extend(ways.iter().map(|&how| accepts(how, &told.1)));
    }
    page + &table(name, statement, &cases)
}

/// Sheets that the recyclings press apart.
fn parting() -> [Told; 6] {
    [
        (
            "what all uses allow cuts a step that the reset leaves. A pass in which a cut edge counts leaves it too",
            all_allow(),
        ),
        ("the other way round: the intersection has a step more", reset_shorter()),
        (
            "what two uses have in common is neither nothing, nor all that they hand over, nor what the first or the last one does",
            keeps_common(),
        ),
        (
            "one of two uses is cut. A pass in which it counts cuts less, also where it hands over its side of the pivot",
            cut_use(),
        ),
        (
            "one of two uses is in a step that is not reached. A pass in which it counts cuts less",
            unreached_use(),
        ),
        (
            "by the reset, after the rebuild a step names one node twice, though no step did before",
            twice_after(),
        ),
    ]
}

pub fn lowerings() -> String {
    let by = |recycling| vec![By(recycling, Units)];
    let no_unit = (
        "by the reset, a node that one step names twice holds two literals, and is no unit",
        twice_again(),
    );
    let told = lowered().map(|told| (told, by(Intersection)));
    let told: Vec<_> = told.into_iter().chain([(no_unit, by(Reset))]).collect();
    named(LOWERINGS, "lowerings", "Lowerings", &told)
}

/// Sheets that tell lowering the units from passes that look like it.
fn lowered() -> [Told; 9] {
    [
        (
            "two units, each used twice, come back in the order of their collection, {-1} on the right and {+0} on the left",
            everywhere(),
        ),
        (
            "a unit whose own derivation uses another one. With the old unit there would be a step more, and in another order -1 would be left",
            within(),
        ),
        (
            "of two opposite units only the first is collected, {-0}",
            opposites(),
        ),
        (
            "the same literal is collected twice, and comes back twice",
            again(),
        ),
        (
            "the conclusion lacks the opposite of the second unit, and stays",
            stays(),
        ),
        ("units with one use stay where they are", once()),
        (
            "a unit with one use in the sheet, and two after step 4",
            merged(),
        ),
        (
            "a unit with two uses in the sheet, and one after step 4",
            fewer(),
        ),
        (
            "variables at one place of the halves, and units on them that are no opposites",
            high_everywhere(),
        ),
    ]
}

pub fn univalents() -> String {
    let way = By(Intersection, Univalents);
    let mut page = UNIVALENTS.to_string();
    for (why, worked) in &units_too() {
        let out = way.pressed(worked).expect("the press takes it");
        page += &records_of(why, &way.pressed_name(worked), &out);
    }
    for told in &univalent() {
        page += &told_of(told, &[way]);
    }
    let mut cases: Vec<_> = units_too()
        .map(|(_, worked)| accepts(way, &worked))
        .to_vec();
    cases.push(accepts(way, &fewer()));
    cases.extend(univalent().map(|(_, worked)| accepts(way, &worked)));
    page + &table("univalents", "LoweredUnivalents", &cases)
}

/// Sheets of the units' table that come out otherwise by the univalents.
fn units_too() -> [Told; 2] {
    [
        (
            "of two opposite units the first one up is lowered, {+0}, and then -0 is in D",
            opposites(),
        ),
        (
            "the second of two nodes with one literal has its opposite in D, and stays: two steps more than by the units",
            stays(),
        ),
    ]
}

/// Sheets that tell lowering the univalents from passes that look like it.
fn univalent() -> [Told; 6] {
    [
        (
            "a node of two literals is lowered, since the opposite of one was lowered before. In another order +0 would be left",
            after(),
        ),
        (
            "a node of two literals, of which the one that it is not used on lies outside D",
            rest_outside(),
        ),
        (
            "a node that is used on two literals is not lowered, though the rest of its clause lies in D: twice on the left, once on the right",
            on_two_literals(),
        ),
        (
            "node 5 as rebuilt has lost a literal that is not in D, and is lowered",
            as_rebuilt(),
        ),
        (
            "node 5 as rebuilt has lost the literal that it is used on, and is not lowered",
            lacks_it(),
        ),
        (
            "a node whose two literals lie at one place of the halves",
            high_after(),
        ),
    ]
}
