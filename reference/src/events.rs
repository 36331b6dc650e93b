//! Interesting things that may happen inside an accepted press.

use crate::clause::{Clause, Literal};
use crate::passes::bottom_up::bottom_up_by;
use crate::passes::drops::{peak, with_drops};
use crate::passes::lower::{Low, Lowered, Return};
use crate::passes::order::ordered;
use crate::passes::rebuild::Why;
use crate::passes::recycle::{uncut_edges, Edge};
use crate::passes::univalents::{lower_by, lowers, Turn};
use crate::plan::{Lowering, Plan, Recycling};
use crate::press::Passes;
use crate::proof::{Node, Proof};
use crate::record::Record;
use std::collections::{BTreeMap, BTreeSet};

pub type Event = (&'static str, bool);

/// What happened inside an accepted press.
pub fn pass_events(plan: Plan, passes: &Passes) -> Vec<Event> {
    let parts = [
        shortening_events(passes),
        sharing_events(plan.recycling, passes),
        match &passes.lowered {
            None => vec![],
            Some(lowered) => lowering_events(passes, lowered),
        },
        match (plan.lowering, &passes.lowered) {
            (Lowering::Units, Some(lowered)) => unit_events(passes, lowered),
            (Lowering::Univalents, Some(lowered)) => univalent_events(passes, lowered),
            _ => vec![],
        },
        order_events(passes),
        output_events(passes),
    ];
    parts.concat()
}

/// Steps 1 to 4.
fn shortening_events(passes: &Passes) -> Vec<Event> {
    let trimmed = passes.trimmed.nodes.len();
    let rebuilt = passes.rebuilt.nodes.len();
    let cut = |edge| passes.visits.values().any(|visit| visit.cut == Some(edge));
    let why = |why| passes.rebuilt.why.values().any(|w| *w == why);
    vec![
        (
            "input: a derived clause holds v both ways",
            both_ways(passes),
        ),
        ("trim: unused records", trimmed < passes.input.nodes.len()),
        ("recycle: left edge cut", cut(Edge::Left)),
        ("recycle: right edge cut", cut(Edge::Right)),
        ("recycle: S handed on cuts again", cuts_again(passes)),
        (
            "rebuild: left stand-in lacks pivot",
            why(Why::LeftLacksPivot),
        ),
        (
            "rebuild: right stand-in lacks pivot",
            why(Why::RightLacksPivot),
        ),
        (
            "rebuild: a new step has a new clause",
            has_new_clause(passes),
        ),
        (
            "second trim: removed something",
            passes.recycled.nodes.len() < rebuilt,
        ),
    ]
}

fn output_events(passes: &Passes) -> Vec<Event> {
    let pressed = &passes.pressed;
    let peak = peak(&passes.records);
    let differs = pressed.conclusion() != passes.input.conclusion();
    vec![
        (
            "output: conclusion not empty",
            !pressed.conclusion().is_empty(),
        ),
        ("output: conclusion has fewer literals", differs),
        (
            "output: a node named twice by one step",
            names_twice(pressed),
        ),
        (
            "output: a rule line named by two nodes",
            names_line_twice(passes),
        ),
        ("output: peak over 3", peak > 3),
        ("output: peak over 8", peak > 8),
        ("output: depth over 500", depth(pressed) > 500),
    ]
}

/// Variables that only the wide edition has, in what is emitted.
pub fn high_events(passes: &Passes) -> Vec<Event> {
    let nodes = || passes.pressed.nodes.values();
    let high = |node: &Node| {
        let mut literals = node.clause().literals();
        literals.any(|literal| literal.variable() > 63)
    };
    let pivot = |node: &Node| matches!(node, Node::Step { pivot: 64.., .. });
    let given = |node: &Node| matches!(node, Node::Given { .. });
    vec![
        ("wide: a pivot over 63", nodes().any(pivot)),
        (
            "wide: over 63 in a given clause",
            nodes().any(|node| given(node) && high(node)),
        ),
        (
            "wide: over 63 in a derived clause",
            nodes().any(|node| !given(node) && high(node)),
        ),
        (
            "wide: a cut on a pivot over 63",
            passes
                .visits
                .iter()
                .any(|(number, visit)| visit.cut.is_some() && pivot(&passes.trimmed.nodes[number])),
        ),
    ]
}

/// Whether the preference among premises made a difference to the bottom-up order:
/// against going left always, against ties going right, and against counting children
/// as 002 does. And how the two orders compare.
fn order_events(passes: &Passes) -> Vec<Event> {
    let pressed = &passes.pressed;
    let uses = pressed.uses();
    let children = |number: usize| {
        let names_it = |node: &&Node| node.parents().contains(&number);
        pressed.nodes.values().filter(names_it).count()
    };
    let counts: BTreeMap<usize, usize> = pressed.nodes.keys().map(|&n| (n, children(n))).collect();
    let differs = |right_first: &dyn Fn(usize, usize) -> bool| {
        bottom_up_by(pressed, right_first) != passes.bottom_up
    };
    let orders = [&passes.bottom_up, &passes.top_down];
    let [old_peak, new_peak] = orders.map(|order| peak(&with_drops(pressed, order)));
    let same = passes.bottom_up == passes.top_down;
    vec![
        ("order: decided by uses", differs(&|_, _| false)),
        (
            "order: decided by tie going left",
            differs(&|l, r| uses[&r] >= uses[&l]),
        ),
        (
            "order: counting children would differ",
            differs(&|l, r| counts[&r] > counts[&l]),
        ),
        ("order: top-down has the smaller peak", new_peak < old_peak),
        ("order: top-down has the larger peak", new_peak > old_peak),
        ("order: two orders, one peak", new_peak == old_peak && !same),
    ]
}

fn both_ways(passes: &Passes) -> bool {
    let holds = |node: &Node| node.clause().holds_both_ways();
    passes.input.nodes.values().any(holds)
}

/// What the recycling came to at steps with two or more uses.
fn sharing_events(recycling: Recycling, passes: &Passes) -> Vec<Event> {
    let uses = passes.trimmed.uses();
    let shared = |number: &usize| uses[number] >= 2;
    let edges = passes
        .visits
        .iter()
        .flat_map(|(number, visit)| uncut_edges(&passes.trimmed.nodes[number], visit));
    let handed = edges.filter(|(parent, _)| shared(parent));
    // steps that a set handed to them would cut
    let mut threatened = handed.filter_map(|(parent, set)| match passes.trimmed.nodes[&parent] {
        Node::Step { pivot, .. } if set.literals().any(|l| l.variable() == pivot) => Some(parent),
        _ => None,
    });
    let is_cut = |number: &usize| passes.visits[number].cut.is_some();
    let spared = threatened.any(|number| !is_cut(&number));
    match recycling {
        Recycling::Reset => vec![("reset: prevented a cut", spared)],
        Recycling::Intersection => {
            let cut = passes.visits.keys().any(|n| shared(n) && is_cut(n));
            vec![
                ("intersection: a shared step is cut", cut),
                ("intersection: prevented a cut", spared),
            ]
        }
    }
}

/// What lowering came to, whatever was lowered.
fn lowering_events(passes: &Passes, lowered: &Lowered) -> Vec<Event> {
    let before = &passes.recycled;
    let records = ordered(before).records;
    let [old_peak, new_peak] = [&records, &passes.records].map(|records| peak(records));
    let both_ways = |proof: &Proof| {
        let mut nodes = proof.nodes.values();
        nodes.any(|node| node.clause().holds_both_ways())
    };
    vec![
        ("lower: three or more", lowered.low.len() >= 3),
        (
            "lower: the conclusion stays",
            lowered.returns.contains(&Return::Stays),
        ),
        (
            "lower: the conclusion has fewer literals",
            passes.pressed.conclusion() != before.conclusion(),
        ),
        (
            "lower: a variable both ways is new",
            both_ways(&passes.pressed) && !both_ways(before),
        ),
        ("lower: a higher peak", new_peak > old_peak),
        ("lower: a lower peak", new_peak < old_peak),
    ]
}

fn unit_events(passes: &Passes, lowered: &Lowered) -> Vec<Event> {
    let units = &lowered.low;
    let literals: BTreeSet<_> = units.iter().map(|unit| unit.literal).collect();
    let old = |node: usize| passes.recycled.nodes[&node].clause();
    let by_another = |unit: &Low| lowered.rebuilt.clause(unit.node) != old(unit.node);
    vec![
        ("units: one is lowered", !units.is_empty()),
        ("units: one literal twice", literals.len() < units.len()),
        (
            "units: an opposite is passed over",
            passed_over(passes, lowered),
        ),
        ("units: one by another one", units.iter().any(by_another)),
    ]
}

/// Whether a unit was not collected because its opposite was.
fn passed_over(passes: &Passes, lowered: &Lowered) -> bool {
    let uses = passes.recycled.uses();
    let mut nodes = passes.recycled.nodes.iter();
    nodes.any(|(number, node)| {
        let literals: Vec<_> = node.clause().literals().collect();
        let collected = lowered.low.iter().any(|unit| unit.node == *number);
        literals.len() == 1 && uses[number] >= 2 && !collected
    })
}

fn univalent_events(passes: &Passes, lowered: &Lowered) -> Vec<Event> {
    let old = |low: &Low| passes.recycled.nodes[&low.node].clause();
    let longest = lowered.low.iter().map(|low| old(low).literals().count());
    let longest = longest.max().unwrap_or(0);
    let lacks = |why: &Why| matches!(why, Why::LeftLacksPivot | Why::RightLacksPivot);
    // whether a node is lowered only with another D, or with its last use only
    let [mut by_l, mut by_opposite, mut by_uses] = [false; 3];
    lower_by(&passes.recycled, |turn| {
        if let (None, Some(&l)) = (lowers(turn), turn.uses.last()) {
            let with = |d: Clause, uses: &[Literal]| {
                lowers(&Turn {
                    d: &d,
                    uses,
                    ..*turn
                })
            };
            by_l |= with(turn.d.without(l), turn.uses).is_some();
            by_opposite |= with(turn.d.without(l.opposite()), turn.uses).is_some();
            by_uses |= turn.uses.len() > 1 && with(turn.d.clone(), &[l, l]).is_some();
        }
        lowers(turn)
    });
    vec![
        ("univalents: one is lowered", longest > 0),
        ("univalents: one of two literals", longest == 2),
        ("univalents: one of three or more", longest > 2),
        ("univalents: l in D keeps one", by_l),
        ("univalents: its opposite in D keeps one", by_opposite),
        ("univalents: uses on two literals keep one", by_uses),
        (
            "univalents: a stand-in lacks the pivot",
            lowered.rebuilt.why.values().any(lacks),
        ),
    ]
}

/// Whether the two recyclings part.
pub fn recyclings_part(both: &[Passes; 2]) -> Vec<Event> {
    let names = [
        "both: the recyclings press apart",
        "both: the reset is shorter",
        "both: the intersection is shorter",
    ];
    parting_events(names, both)
}

/// Whether the units and the univalents do.
pub fn lowerings_part(both: &[Passes; 2]) -> Vec<Event> {
    let names = [
        "both: units and univalents press apart",
        "both: lowering units is shorter",
        "both: lowering univalents is shorter",
    ];
    parting_events(names, both)
}

/// Whether they part, and which is the shorter one.
fn parting_events(names: [&'static str; 3], [one, other]: &[Passes; 2]) -> Vec<Event> {
    let [first, second] = [one, other].map(|passes| passes.pressed.steps());
    let happened = [one.records != other.records, first < second, second < first];
    names.into_iter().zip(happened).collect()
}

/// Whether a cut step's kept parent is cut in its turn.
fn cuts_again(passes: &Passes) -> bool {
    let mut cut_steps = passes
        .visits
        .iter()
        .filter(|(_, visit)| visit.cut.is_some());
    cut_steps.any(|(number, visit)| {
        let kept = uncut_edges(&passes.trimmed.nodes[number], visit);
        kept.iter()
            .any(|(parent, _)| passes.visits[parent].cut.is_some())
    })
}

fn has_new_clause(passes: &Passes) -> bool {
    let differs = |(n, node): (&usize, &Node)| node.clause() != passes.trimmed.nodes[n].clause();
    passes.recycled.nodes.iter().any(differs)
}

fn names_twice(proof: &Proof) -> bool {
    let twice = |node: &Node| matches!(node, Node::Step { left, right, .. } if left == right);
    proof.nodes.values().any(twice)
}

fn names_line_twice(passes: &Passes) -> bool {
    let mut lines = BTreeSet::new();
    passes.records.iter().any(|record| match record {
        Record::Node(Node::Given { line, .. }) => !lines.insert(*line),
        _ => false,
    })
}

/// The number of nodes on the longest path of parents.
fn depth(proof: &Proof) -> usize {
    let mut depths: BTreeMap<usize, usize> = BTreeMap::new();
    for (&number, node) in &proof.nodes {
        let above = node.parents().iter().map(|parent| depths[parent]).max();
        depths.insert(number, above.unwrap_or(0) + 1);
    }
    depths[&proof.sink]
}
