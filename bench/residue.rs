//! The first yardstick of the verdict: the functionality test of document 000 (theorem 3.23, corollary 3.24) in plain Rust. It shows no witness.

use crate::plain::{read, Held, Transducer, Transition};

/// What one side of a pair has written more than the other: the unmatched end, and whether the left side wrote it.
#[derive(Clone)]
struct Residue {
    left_ahead: bool,
    unmatched: Vec<u8>,
}

/// The transitions by the state that a step of a pair begins in, and by the one that it ends in.
struct Steps<'a> {
    lists: Vec<Vec<&'a Transition>>,
    other_end: fn(&Transition) -> usize,
}

impl<'a> Steps<'a> {
    fn forward(transducer: &'a Transducer) -> Self {
        Steps { lists: transducer.index(|transition| transition.source), other_end: |transition| transition.target }
    }

    fn backward(transducer: &'a Transducer) -> Self {
        Steps { lists: transducer.index(|transition| transition.target), other_end: |transition| transition.source }
    }

    /// All steps of a pair: the pair that each leads to, and what it writes on the left and on the right. Ends with what `visit` first refuses.
    fn all(&self, (p, q): (usize, usize), mut visit: impl FnMut((usize, usize), &'a [u8], &'a [u8]) -> bool) -> bool {
        for left in &self.lists[p] {
            let to = (self.other_end)(left);
            if left.input == 0 {
                if !visit((to, q), left.output(), &[]) {
                    return false;
                }
                continue;
            }
            for right in self.lists[q].iter().filter(|right| right.input == left.input) {
                if !visit((to, (self.other_end)(right)), left.output(), right.output()) {
                    return false;
                }
            }
        }
        self.lists[q].iter().filter(|right| right.input == 0).all(|right| visit((p, (self.other_end)(right)), &[], right.output()))
    }
}

/// The allowed pairs that the steps reach from two of the given states.
fn reached(steps: &Steps, from: &[usize], allowed: impl Fn(usize, usize) -> bool) -> Vec<Vec<bool>> {
    let count = steps.lists.len();
    let mut seen = vec![vec![false; count]; count];
    let mut waiting: Vec<_> = pairs(from).filter(|&(p, q)| allowed(p, q)).collect();
    waiting.iter().for_each(|&(p, q)| seen[p][q] = true);
    while let Some(pair) = waiting.pop() {
        steps.all(pair, |(p, q), _, _| {
            if !seen[p][q] && allowed(p, q) {
                seen[p][q] = true;
                waiting.push((p, q));
            }
            true
        });
    }
    seen
}

fn pairs(states: &[usize]) -> impl Iterator<Item = (usize, usize)> + '_ {
    states.iter().flat_map(move |&p| states.iter().map(move |&q| (p, q)))
}

/// The residue after a step, in what the step writes or in `ahead`, which is overwritten; None for a clash.
fn after<'a>(residue: &Residue, left: &'a [u8], right: &'a [u8], ahead: &'a mut Vec<u8>) -> Option<(bool, &'a [u8])> {
    let (own, other) = if residue.left_ahead { (left, right) } else { (right, left) };
    ahead.clear();
    ahead.extend_from_slice(&residue.unmatched);
    ahead.extend_from_slice(own);
    let common = ahead.iter().zip(other).take_while(|(a, b)| a == b).count();
    match (&ahead[common..], &other[common..]) {
        ([], []) => Some((false, &[])),
        (longer, []) => Some((residue.left_ahead, longer)),
        ([], longer) => Some((!residue.left_ahead, longer)),
        _ => None,
    }
}

/// Each useful pair must have one residue, and final pairs the empty one.
fn functional(transducer: &Transducer, steps: &Steps, useful: &[Vec<bool>]) -> bool {
    let mut residues: Vec<Vec<Option<Residue>>> = vec![vec![None; transducer.states]; transducer.states];
    let mut waiting: Vec<_> = pairs(&transducer.starts).filter(|&(p, q)| useful[p][q]).collect();
    waiting.iter().for_each(|&(p, q)| residues[p][q] = Some(Residue { left_ahead: false, unmatched: Vec::new() }));
    let mut ahead = Vec::new();
    while let Some((p, q)) = waiting.pop() {
        let residue = residues[p][q].clone().unwrap();
        let agree = steps.all((p, q), |(p, q), left, right| {
            if !useful[p][q] {
                return true;
            }
            let Some((left_ahead, unmatched)) = after(&residue, left, right, &mut ahead) else { return false };
            if let Some(old) = &residues[p][q] {
                return old.left_ahead == left_ahead && old.unmatched == unmatched;
            }
            residues[p][q] = Some(Residue { left_ahead, unmatched: unmatched.to_vec() });
            waiting.push((p, q));
            true
        });
        if !agree {
            return false;
        }
    }
    pairs(&transducer.finals).all(|(p, q)| residues[p][q].as_ref().is_none_or(|residue| residue.unmatched.is_empty()))
}

/// Whether a held table is split, and u.
pub fn decide(held: &Held) -> (bool, usize) {
    let transducer = read(held);
    let steps = Steps::forward(&transducer);
    let begun = reached(&steps, &transducer.starts, |_, _| true);
    let useful = reached(&Steps::backward(&transducer), &transducer.finals, |p, q| begun[p][q]);
    let split = !functional(&transducer, &steps, &useful);
    (split, useful.iter().flatten().filter(|&&pair| pair).count())
}
