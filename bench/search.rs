//! The yardstick of the translator: a breadth-first search over positions in the word and states, in plain Rust.

use crate::plain::{read, Held, Transition};

/// The output of an accepting path that reads the word, by a held table; None where no path does.
pub fn translate(held: &Held, word: &[u8]) -> Option<Vec<u8>> {
    let transducer = read(held);
    let (states, leaving) = (transducer.states, transducer.index(|transition| transition.source));
    let mut is_final = vec![false; states];
    transducer.finals.iter().for_each(|&state| is_final[state] = true);

    // A node is a position and a state; the queue holds nodes and, beside each, how it was reached: from which place of the queue, by what.
    let mut seen = vec![false; (word.len() + 1) * states];
    let mut queue: Vec<(usize, usize, Option<(usize, &Transition)>)> = Vec::new();
    for &start in &transducer.starts {
        seen[start] = true;
        queue.push((0, start, None));
    }
    let mut place = 0;
    while place < queue.len() {
        let (position, state, _) = queue[place];
        if position == word.len() && is_final[state] {
            return Some(written(&queue, place));
        }
        for &transition in &leaving[state] {
            let position = match transition.input {
                0 => position,
                code if word.get(position) == Some(&code) => position + 1,
                _ => continue,
            };
            let node = position * states + transition.target;
            if !seen[node] {
                seen[node] = true;
                queue.push((position, transition.target, Some((place, transition))));
            }
        }
        place += 1;
    }
    None
}

/// What the path to a place of the queue writes.
fn written(queue: &[(usize, usize, Option<(usize, &Transition)>)], mut place: usize) -> Vec<u8> {
    let mut path = Vec::new();
    while let Some((before, transition)) = queue[place].2 {
        path.push(transition);
        place = before;
    }
    let mut output = Vec::with_capacity(8 * path.len());
    path.iter().rev().for_each(|transition| output.extend_from_slice(transition.output()));
    output
}
