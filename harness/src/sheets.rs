//! Sheets that are measured and shown.

use reference::cases::draft::Draft;
use reference::cases::stages::{ladder, stages, Givens};
use reference::clause::{Clause, Literal};
use reference::edition::Edition;
use reference::plan::Plan;
use reference::press::{press, Pressed};
use reference::rng::Rng;
use reference::sheets::starred;

/// A sheet, its rule table, and what the second program makes of it by the plan.
pub struct Sheet {
    pub plan: Plan,
    pub name: String,
    pub sheet: Vec<u8>,
    pub rules: Vec<u8>,
    pub out: Vec<u8>,
    pub pressed: Pressed,
}

impl Sheet {
    fn new(plan: Plan, name: &str, (sheet, rules): (Vec<u8>, Vec<u8>)) -> Sheet {
        let edition = plan.edition;
        let record = edition.record_bytes();
        let mut out = vec![0; edition.room(sheet.len() / record)];
        let mut marks = vec![0; rules.len() / edition.line_bytes()];
        let pressed = press(plan, &sheet, &rules, &mut out, &mut marks);
        let pressed = pressed.expect("the sheets are good");
        out.truncate(pressed.records * record);
        Sheet {
            plan,
            name: name.to_string(),
            sheet,
            rules,
            out,
            pressed,
        }
    }

    fn of(plan: Plan, name: &str, draft: &Draft) -> Sheet {
        let bytes = (draft.sheet(plan.edition), draft.rule_table(plan.edition));
        Sheet::new(plan, name, bytes)
    }

    pub fn records(&self) -> usize {
        self.sheet.len() / self.plan.edition.record_bytes()
    }

    pub fn lines(&self) -> usize {
        self.rules.len() / self.plan.edition.line_bytes()
    }
}

/// A draft of up to so many records, and of nearly as many.
type Shape = fn(Edition, usize) -> Draft;

const SHAPES: [(&str, Shape); 5] = [
    ("shallow", |_, size| shallow(size)),
    ("deep", |edition, size| {
        stages(edition, size, Givens::Shared)
    }),
    ("chain", |_, size| chain(size)),
    ("shared", |_, size| ladder(size)),
    ("held", |edition, size| stages(edition, size, Givens::Held)),
];

/// The one of this name: a small one, or a shape, as `shared-64` at a size, or
/// as long as a sheet can be. `wide-shared-64` is in the wide edition. Of the plan
/// only the passes count.
pub fn named(passes: Plan, name: &str) -> Option<Sheet> {
    let (edition, rest) = match name.strip_prefix("wide-") {
        Some(rest) => (Edition::Wide, rest),
        None => (Edition::Narrow, name),
    };
    let plan = Plan { edition, ..passes };
    if rest == "pair" {
        let pair = starred::pair().in_edition(edition);
        return Some(Sheet::new(plan, name, pair.bytes()));
    }
    let (word, size) = match rest.split_once('-') {
        Some((word, size)) => (word, size.parse().ok()?),
        None => (rest, edition.press_records()),
    };
    let (_, shape) = SHAPES.into_iter().find(|(known, _)| *known == word)?;
    Some(Sheet::of(plan, name, &shape(edition, size)))
}

/// What a name has in front in this edition.
fn prefix(edition: Edition) -> &'static str {
    match edition {
        Edition::Narrow => "",
        Edition::Wide => "wide-",
    }
}

/// The small one, and one of each shape.
pub fn all(plan: Plan) -> Vec<Sheet> {
    let shapes = SHAPES.iter().map(|(name, _)| *name);
    let names = ["pair"].into_iter().chain(shapes);
    let name = |name| format!("{}{name}", prefix(plan.edition));
    names.flat_map(|word| named(plan, &name(word))).collect()
}

/// The same of both editions, by the program's passes.
pub fn of_both() -> Vec<Sheet> {
    let plans = Edition::ALL.into_iter().map(Plan::program_in);
    plans.flat_map(all).collect()
}

/// Each shape at five sizes, of which each is twice the one before it.
pub fn growing(plan: Plan) -> Vec<Vec<Sheet>> {
    let edition = plan.edition;
    let sizes = [16, 8, 4, 2, 1].map(|part| edition.press_records() / part);
    let at = |name: &str| sizes.map(|size| format!("{}{name}-{size}", prefix(edition)));
    let named = |name: &String| named(plan, name);
    let shapes = SHAPES.iter().map(|(name, _)| at(name));
    shapes
        .map(|names| names.iter().flat_map(named).collect())
        .collect()
}

/// A tree: the leaves are all clauses over as many variables as it has levels,
/// and level v resolves variable v away.
fn shallow(size: usize) -> Draft {
    let levels = (size + 1).ilog2() as u8 - 1;
    let mut draft = Draft::default();
    let mut rng = Rng::new(0, 0);
    let leaf = |signs: u32| {
        let literal = |v: u8| match signs >> v & 1 {
            0 => Literal::Plus(v),
            _ => Literal::Minus(v),
        };
        (0..levels).map(literal).collect()
    };
    let leaves = (0..1 << levels).map(|signs| draft.give(&mut rng, leaf(signs)));
    let mut row: Vec<usize> = leaves.collect();
    for pivot in 0..levels {
        let pairs = row.chunks_exact(2);
        row = pairs
            .map(|two| draft.resolve(pivot, two[0], two[1]))
            .collect();
    }
    draft
}

/// {+0} and {-0,+1} make {+1}, which makes {+0} with {-1,+0}, and so on: deep,
/// and nearly all of it is cut.
fn chain(size: usize) -> Draft {
    let mut draft = Draft::default();
    let mut rng = Rng::new(0, 0);
    let mut last = draft.give(&mut rng, [Literal::Plus(0)].into_iter().collect());
    for turn in 0..(size - 1) / 2 {
        let (pivot, next) = if turn % 2 == 0 { (0, 1) } else { (1, 0) };
        let literals = [Literal::Minus(pivot), Literal::Plus(next)];
        let other: Clause = literals.into_iter().collect();
        let other = draft.give(&mut rng, other);
        last = draft.resolve(pivot, last, other);
    }
    draft
}
