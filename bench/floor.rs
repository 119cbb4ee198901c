//! The floor of a call on a held table, in plain Rust: what the library tests at each call (the rules of document 01 and the kept set of useful states),
//! by bit sets, and over the held bytes themselves; and the translation, by a search whose lists have as many places as the word has nodes. The other
//! calls are this test and then the yardstick with the library's own method.

use crate::plain::{line_count, lines, Held, FINALS_AT, LINE, LINES_AT, STARTS_AT, STATES, USEFUL_AT};

/// Whether the calls take the table.
pub fn taken(held: &Held) -> bool {
    rules(held) && set(held, USEFUL_AT) == useful(held)
}

fn rules(held: &Held) -> bool {
    let (states, count) = (held[0], line_count(held));
    let flags = &held[STARTS_AT..STARTS_AT + 3 * STATES];
    let mut kept = (1..=STATES as u8).contains(&states) && count <= 256;
    flags.iter().for_each(|&flag| kept &= flag <= 1);
    flags.iter().take(2 * STATES).enumerate().for_each(|(place, &flag)| kept &= place % STATES < states as usize || flag == 0);
    kept && lines(held).all(|line| fits(line, states)) && held[LINES_AT + LINE * count..].iter().fold(0, |bits, byte| bits | byte) == 0
}

/// Whether a line keeps the ranges of a table of so many states.
pub fn fits(line: &[u8; LINE], states: u8) -> bool {
    let [source, target, input, count, codes @ ..] = line;
    let in_place = |(place, &code): (usize, &u8)| ((code != 0) == (place < *count as usize)) & (code <= 250);
    *source < states && *target < states && *input <= 250 && *count <= 8 && codes.iter().enumerate().fold(true, |kept, code| kept & in_place(code))
}

/// The states whose flag is 1.
fn set(held: &Held, from: usize) -> u32 {
    (0..STATES).fold(0, |bits, state| bits | (held[from + state] as u32) << state)
}

/// The useful states: reached from a start state, and leading to a final one.
pub fn useful(held: &Held) -> u32 {
    let (mut after, mut before) = ([0; STATES], [0; STATES]);
    for line in lines(held) {
        let (source, target) = (line[0] as usize % STATES, line[1] as usize % STATES);
        after[source] |= 1 << target;
        before[target] |= 1 << source;
    }
    reached(set(held, STARTS_AT), &after) & reached(set(held, FINALS_AT), &before)
}

fn reached(from: u32, next: &[u32; STATES]) -> u32 {
    let (mut found, mut waiting) = (from, from);
    while waiting != 0 {
        let new = next[waiting.trailing_zeros() as usize] & !found;
        waiting = waiting & (waiting - 1) | new;
        found |= new;
    }
    found
}

const NODES: usize = 256 * STATES; // of the longest word

/// How a node was reached, by the place of the queue that it stands at: the node itself, from which place (counted from 1; 0 at the start), by which line.
#[derive(Clone, Copy)]
struct Node {
    number: u16,
    from: u16,
    line: u16,
}

/// The lists of a search, used again by each.
pub struct Search {
    seen: [bool; NODES],
    queue: [Node; NODES],
    count: usize,
}

impl Search {
    pub fn new() -> Search {
        Search { seen: [false; NODES], queue: [Node { number: 0, from: 0, line: 0 }; NODES], count: 0 }
    }

    /// Writes the output of an accepting path that reads the word, and returns its length; None where no path does, or the table is not taken.
    pub fn translate(&mut self, held: &Held, word: &[u8], output: &mut [u8]) -> Option<usize> {
        if !taken(held) {
            return None;
        }
        let (first, order) = sorted(held);
        self.seen[..(word.len() + 1) * STATES].fill(false);
        self.count = 0;
        (0..STATES).filter(|state| held[STARTS_AT + state] == 1).for_each(|state| self.offer(state, 0, 0));
        let mut place = 0;
        while place < self.count {
            let node = self.queue[place].number as usize;
            let (position, state) = (node / STATES, node % STATES);
            if position == word.len() && held[FINALS_AT + state] == 1 {
                return Some(self.write(held, place, output));
            }
            let code = word.get(position).copied().unwrap_or(0);
            for &number in &order[first[state] as usize..first[state + 1] as usize] {
                let line = &held[LINES_AT + LINE * number as usize..][..LINE];
                if line[2] == 0 {
                    self.offer(position * STATES + line[1] as usize, place + 1, number);
                } else if line[2] == code {
                    self.offer((position + 1) * STATES + line[1] as usize, place + 1, number);
                }
            }
            place += 1;
        }
        None
    }

    fn offer(&mut self, node: usize, from: usize, line: u16) {
        if !self.seen[node] {
            self.seen[node] = true;
            self.queue[self.count] = Node { number: node as u16, from: from as u16, line };
            self.count += 1;
        }
    }

    /// The lines of the path to a place of the queue, the last first.
    fn path<'a>(&'a self, held: &'a Held, mut place: usize) -> impl Iterator<Item = &'a [u8]> {
        std::iter::from_fn(move || {
            let node = &self.queue[place];
            place = (node.from as usize).checked_sub(1)?;
            Some(&held[LINES_AT + LINE * node.line as usize..])
        })
    }

    fn write(&self, held: &Held, place: usize, output: &mut [u8]) -> usize {
        let length = self.path(held, place).map(|line| line[3] as usize).sum();
        let mut end = length;
        for line in self.path(held, place) {
            let count = line[3] as usize;
            output[end - count..end].copy_from_slice(&line[4..4 + count]);
            end -= count;
        }
        length
    }
}

/// The numbers of the lines by the state that they leave, and where those of each state begin.
fn sorted(held: &Held) -> ([u16; STATES + 1], [u16; 256]) {
    let (mut first, mut order) = ([0; STATES + 1], [0; 256]);
    lines(held).for_each(|line| first[line[0] as usize + 1] += 1);
    (0..STATES).for_each(|state| first[state + 1] += first[state]);
    let mut next = first;
    for (number, line) in lines(held).enumerate() {
        let place = &mut next[line[0] as usize];
        order[*place as usize] = number as u16;
        *place += 1;
    }
    (first, order)
}
