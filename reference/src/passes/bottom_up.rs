use crate::proof::{Node, Proof};

/// Bottom-up pebbling of source document 002: "Of two premises the one with more
/// uses in the pressed proof goes first; equal: left."
pub fn bottom_up(pressed: &Proof) -> Vec<usize> {
    let uses = pressed.uses();
    bottom_up_by(pressed, &|left, right| uses[&right] > uses[&left])
}

/// The same walk under any preference, so that the coverage table can tell
/// when the preference made a difference.
pub fn bottom_up_by(pressed: &Proof, right_first: &dyn Fn(usize, usize) -> bool) -> Vec<usize> {
    let mut placed = vec![];
    place(pressed, pressed.sink, right_first, &mut placed);
    placed
}

/// "Starting from the sink, the premises are placed first, then the node
/// itself, each node once."
fn place(
    pressed: &Proof,
    number: usize,
    right_first: &dyn Fn(usize, usize) -> bool,
    placed: &mut Vec<usize>,
) {
    if placed.contains(&number) {
        return;
    }
    if let Node::Step { left, right, .. } = pressed.nodes[&number] {
        let (first, second) = if right_first(left, right) {
            (right, left)
        } else {
            (left, right)
        };
        place(pressed, first, right_first, placed);
        place(pressed, second, right_first, placed);
    }
    placed.push(number);
}
