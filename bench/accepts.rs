//! The yardstick of `yotselina_accepts`, in plain Rust, by the library's method: a set of states for each position in the input word and each in the output
//! word, of which the rows of two input positions are kept; with a state its closure under transitions that read and write nothing enters a set. A set is
//! the bits of a u32.

use crate::plain::{read, Held, Transition};

/// Whether an accepting path reads the input word and writes the output word, by a held table.
pub fn accepts(held: &Held, input: &[u8], output: &[u8]) -> bool {
    let transducer = read(held);
    let mut leaving = transducer.index(|transition| transition.source);
    let closures = closures(&leaving);
    leaving.iter_mut().for_each(|list| list.retain(|transition| !stays(transition)));
    let mut here = vec![0; output.len() + 1];
    let mut next = here.clone();
    here[0] = transducer.starts.iter().fold(0, |set, &state| set | closures[state]);
    for i in 0..=input.len() {
        for j in 0..=output.len() {
            let (code, rest) = (input.get(i), &output[j..]);
            let mut waiting: u32 = here[j];
            while waiting != 0 {
                let state = waiting.trailing_zeros() as usize;
                waiting &= waiting - 1;
                for transition in leaving[state].iter().filter(|transition| transition.input == 0 || code == Some(&transition.input)) {
                    // `starts_with` calls memcmp, which takes longer on eight codes at most
                    if rest.len() < transition.count || transition.output().iter().zip(rest).any(|(a, b)| a != b) {
                        continue;
                    }
                    let row = if transition.input == 0 { &mut here } else { &mut next };
                    row[j + transition.count] |= closures[transition.target];
                }
            }
        }
        if i < input.len() {
            std::mem::swap(&mut here, &mut next);
            next.fill(0);
        }
    }
    transducer.finals.iter().any(|&state| here[output.len()] >> state & 1 == 1)
}

fn stays(transition: &Transition) -> bool {
    transition.input == 0 && transition.count == 0
}

/// For each state, itself and the states that transitions which read and write nothing lead to.
fn closures(leaving: &[Vec<&Transition>]) -> Vec<u32> {
    let mut sets: Vec<u32> = (0..leaving.len()).map(|state| 1 << state).collect();
    loop {
        let before = sets.clone();
        leaving.iter().flatten().filter(|transition| stays(transition)).for_each(|transition| sets[transition.source] |= sets[transition.target]);
        if sets == before {
            return sets;
        }
    }
}
