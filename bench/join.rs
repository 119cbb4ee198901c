//! The yardstick of `yotselina_join`, in plain Rust, by the library's method: two searches over pairs of states, one along the steps from two start
//! states and one against them from two final states, then the steps between the pairs that both have found, in the order of the lines.

use crate::plain::{read, Held, Transition, COUNT_AT, FINALS_AT, HELD, LINE, LINES_AT, STARTS_AT, STATES, USEFUL_AT};

const LINES: usize = 256;

/// The joined table, held, by two held tables; or the number of the refusal.
pub fn join(first: &Held, second: &Held) -> Result<Held, u32> {
    let (first, second) = (read(first), read(second));
    if first.transitions.iter().any(|transition| transition.count > 1) {
        return Err(15);
    }
    let leaving = [first.index(|transition| transition.source), second.index(|transition| transition.source)];
    let entering = [first.index(|transition| transition.target), second.index(|transition| transition.target)];
    let starts = pairs(&first.starts, &second.starts);
    let finals = pairs(&first.finals, &second.finals);
    let reached = search(&leaving, &starts, |transition| transition.target);
    let finishing = search(&entering, &finals, |transition| transition.source);
    let joined: Vec<usize> = (0..STATES * STATES).filter(|&pair| reached[pair] && finishing[pair]).collect();
    if joined.len() > STATES {
        return Err(16);
    }
    let mut numbers = [usize::MAX; STATES * STATES];
    joined.iter().enumerate().for_each(|(number, &pair)| numbers[pair] = number);
    let lines = lines(&leaving, &joined, &numbers)?;
    let mut held = [0; HELD];
    held[0] = joined.len().max(1) as u8;
    for (from, ends) in [(STARTS_AT, &starts), (FINALS_AT, &finals), (USEFUL_AT, &joined)] {
        ends.iter().map(|&pair| numbers[pair]).filter(|&number| number < STATES).for_each(|number| held[from + number] = 1);
    }
    held[COUNT_AT..LINES_AT].copy_from_slice(&(lines.len() as u16).to_le_bytes());
    held[LINES_AT..LINES_AT + LINE * lines.len()].copy_from_slice(lines.as_flattened());
    Ok(held)
}

/// Transitions of each side, by state.
type Sides<'a> = [Vec<Vec<&'a Transition>>; 2];

/// Pairs of the states of two rising lists, rising.
fn pairs(first: &[usize], second: &[usize]) -> Vec<usize> {
    first.iter().flat_map(|&p| second.iter().map(move |&q| STATES * p + q)).collect()
}

/// Tells each step of a pair: the first's transition, the second's, in this order, none before any.
fn steps<'a>(sides: &Sides<'a>, pair: usize, mut tell: impl FnMut(Option<&'a Transition>, Option<&'a Transition>)) {
    let (left, right) = (&sides[0][pair / STATES], &sides[1][pair % STATES]);
    right.iter().filter(|other| other.input == 0).for_each(|other| tell(None, Some(other)));
    for transition in left {
        match transition.output() {
            [] => tell(Some(transition), None),
            codes => right.iter().filter(|other| other.input == codes[0]).for_each(|other| tell(Some(transition), Some(other))),
        }
    }
}

/// The pair that a step leads to from a pair, by the state that each transition leads to.
fn entered(pair: usize, first: Option<&Transition>, second: Option<&Transition>, end: impl Fn(&Transition) -> usize) -> usize {
    STATES * first.map_or(pair / STATES, &end) + second.map_or(pair % STATES, &end)
}

/// The pairs that steps lead to from some.
fn search(sides: &Sides, roots: &[usize], end: impl Fn(&Transition) -> usize) -> [bool; STATES * STATES] {
    let mut found = [false; STATES * STATES];
    let mut waiting = roots.to_vec();
    roots.iter().for_each(|&pair| found[pair] = true);
    while let Some(pair) = waiting.pop() {
        steps(sides, pair, |first, second| {
            let next = entered(pair, first, second, &end);
            if !found[next] {
                found[next] = true;
                waiting.push(next);
            }
        });
    }
    found
}

/// The steps between joined pairs, as lines.
fn lines(sides: &Sides, joined: &[usize], numbers: &[usize]) -> Result<Vec<[u8; LINE]>, u32> {
    let mut lines = Vec::new();
    for (number, &pair) in joined.iter().enumerate() {
        steps(sides, pair, |first, second| {
            let next = numbers[entered(pair, first, second, |transition| transition.target)];
            if next < STATES {
                lines.push(line(number, next, first.map_or(0, |transition| transition.input), second));
            }
        });
        if lines.len() > LINES {
            return Err(17);
        }
    }
    Ok(lines)
}

fn line(source: usize, target: usize, input: u8, writes: Option<&Transition>) -> [u8; LINE] {
    let (count, codes) = writes.map_or((0, [0; 8]), |transition| (transition.count, transition.codes));
    let mut line = [source as u8, target as u8, input, count as u8, 0, 0, 0, 0, 0, 0, 0, 0];
    line[4..].copy_from_slice(&codes);
    line
}
