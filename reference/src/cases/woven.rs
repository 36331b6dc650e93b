//! Proofs with nodes that several steps share, below which those steps go apart.

use crate::cases::draft::Draft;
use crate::cases::shapes::clause;
use crate::clause::{Clause, Literal};
use crate::edition::Edition;
use crate::rng::Rng;

/// A node before it is made: the literal that the steps naming it resolve away,
/// what all of them allow it to hold, and the step that it is to be, if it is not
/// to be given.
struct Wish {
    literal: Option<Literal>,
    allowed: Clause,
    step: Option<(u8, usize, usize)>,
}

/// From the sink on, each node is to be a step, mostly on a variable that is not
/// allowed yet. One of its parents is new; the other may be one that steps on the
/// same literal wait for. What those allow differs, and a shared node is allowed
/// what they have in common. Then the nodes are made, the last first, the given
/// ones of what is allowed there.
pub fn woven(rng: &mut Rng, edition: Edition, variables: &[u8], size: usize) -> Draft {
    // few, so that steps on one literal meet
    let few = variables.len().min(rng.between(2, 6));
    let wishes = wishes(rng, &variables[..few], size);
    let mut draft = Draft::default();
    let mut made = vec![0; wishes.len()];
    for (at, wish) in wishes.iter().enumerate().rev() {
        made[at] = match wish.step {
            None => {
                let kept = |l: &Literal| wish.literal == Some(*l) || rng.chance(90);
                let kept: Clause = wish.allowed.literals().filter(kept).collect();
                draft.add(rng, edition, &kept.one_way(), 1)
            }
            Some((pivot, left, right)) => {
                let (left, right) = (made[left], made[right]);
                if draft.can_resolve(pivot, left, right) {
                    draft.resolve(pivot, left, right)
                } else if draft.clause(left).holds(Literal::Plus(pivot)) {
                    right
                } else {
                    left
                }
            }
        };
    }
    draft
}

fn wishes(rng: &mut Rng, variables: &[u8], size: usize) -> Vec<Wish> {
    let width = rng.pick(&[0, 0, 1, 2]);
    let mut wishes = vec![Wish {
        literal: None,
        allowed: clause(rng, variables, width).one_way(),
        step: None,
    }];
    let share_percent = rng.pick(&[60, 90]);
    let mut at = 0;
    while at < wishes.len() && wishes.len() + 2 <= size {
        if let Some(pivot) = new_pivot(rng, variables, &wishes[at].allowed) {
            let sides = [Literal::Plus(pivot), Literal::Minus(pivot)];
            let shared = rng.chance(share_percent).then(|| rng.pick(&sides));
            let [left, right] = sides.map(|literal| {
                let known = match shared == Some(literal) {
                    true => waiting(rng, &wishes, at, literal),
                    false => None,
                };
                let handed = wishes[at].allowed.with(literal);
                hand(&mut wishes, known, literal, handed)
            });
            wishes[at].step = Some((pivot, left, right));
        }
        at += 1;
    }
    wishes
}

/// A node that comes later and that steps on this literal wait for.
fn waiting(rng: &mut Rng, wishes: &[Wish], at: usize, literal: Literal) -> Option<usize> {
    let known = (at + 1..wishes.len()).filter(|&n| wishes[n].literal == Some(literal));
    let known: Vec<usize> = known.collect();
    (!known.is_empty()).then(|| rng.pick(&known))
}

/// The node known, or a new one, to which a step hands these literals.
fn hand(wishes: &mut Vec<Wish>, known: Option<usize>, literal: Literal, handed: Clause) -> usize {
    match known {
        Some(node) => {
            wishes[node].allowed = wishes[node].allowed.common(&handed);
            node
        }
        None => {
            wishes.push(Wish {
                literal: Some(literal),
                allowed: handed,
                step: None,
            });
            wishes.len() - 1
        }
    }
}

/// A variable that is not in the clause, if one of a few is; now and then another.
fn new_pivot(rng: &mut Rng, variables: &[u8], clause: &Clause) -> Option<u8> {
    let held = |&v: &u8| clause.holds(Literal::Plus(v)) || clause.holds(Literal::Minus(v));
    let picks = [(); 4].map(|()| rng.pick(variables));
    let new = picks.into_iter().find(|v| !held(v));
    new.or_else(|| rng.chance(40).then_some(picks[0]))
}
