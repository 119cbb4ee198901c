//! The second yardstick of the verdict: the library's own method in plain Rust, one equation for each step between useful pairs.
//!
//! A search backwards gives each useful pair i one way out, to two final states. Let its left side write x and its right side y. If x is longer,
//! `left i` is the first |x| - |y| codes of x; if y is longer, `right i` is the first |y| - |x| codes of y; what is not named so is empty. The table
//! is single if both are empty at each useful pair of two start states, and if each step from a useful pair i to a useful pair j, which writes a on
//! the left and b on the right, has
//!
//!     right i, a, left j  =  left i, b, right j
//!
//! Where this fails, two accepting paths that read the same word write different outputs: both outputs are made, and compared. No witness is shown.

use crate::plain::{read, Held, Transducer, Transition};

const STATES: usize = 32;
const PAIRS: usize = STATES * STATES; // the pair (p, q) has the number STATES p + q
const NONE: usize = 256; // the number of no transition: those that there are have lower ones

/// The transitions that the two sides of a step take.
type Step = [u16; 2];

const LEFT: usize = 0;
const RIGHT: usize = 1;
const STAY: Step = [NONE as u16; 2];

/// The transitions by the state that a step begins in: the first of each state, and behind each transition the next one.
struct Steps {
    first: [u16; STATES],
    next: [u16; NONE],
    input: [u8; NONE],
    other_end: [u8; NONE],
}

impl Steps {
    fn new(transducer: &Transducer, ends: impl Fn(&Transition) -> (usize, usize)) -> Steps {
        let mut steps = Steps { first: [NONE as u16; STATES], next: [0; NONE], input: [0; NONE], other_end: [0; NONE] };
        for (number, transition) in transducer.transitions.iter().enumerate().rev() {
            let (end, other_end) = ends(transition);
            steps.next[number] = steps.first[end];
            steps.first[end] = number as u16;
            steps.input[number] = transition.input;
            steps.other_end[number] = other_end as u8;
        }
        steps
    }

    fn list(&self, state: usize) -> impl Iterator<Item = usize> + '_ {
        let mut next = self.first[state] as usize;
        std::iter::from_fn(move || {
            let number = next;
            next = *self.next.get(number)? as usize;
            Some(number)
        })
    }

    /// The first step of a pair for which the test is true, and the pair that it leads to.
    #[inline(always)]
    fn find(&self, pair: usize, mut test: impl FnMut(Step, usize) -> bool) -> Option<(Step, usize)> {
        let (p, q) = (pair / STATES, pair % STATES);
        for left in self.list(p) {
            let (input, row) = (self.input[left], STATES * self.other_end[left] as usize);
            if input == 0 {
                let (step, to) = ([left as u16, NONE as u16], row + q);
                if test(step, to) {
                    return Some((step, to));
                }
                continue;
            }
            for right in self.list(q).filter(|&right| self.input[right] == input) {
                let (step, to) = ([left as u16, right as u16], row + self.other_end[right] as usize);
                if test(step, to) {
                    return Some((step, to));
                }
            }
        }
        let silent = self.list(q).filter(|&right| self.input[right] == 0);
        silent.map(|right| ([NONE as u16, right as u16], STATES * p + self.other_end[right] as usize)).find(|&(step, to)| test(step, to))
    }
}

fn pairs(states: &[usize]) -> impl Iterator<Item = usize> + '_ {
    states.iter().flat_map(move |p| states.iter().map(move |q| STATES * p + q))
}

/// The pairs that a breadth-first search has seen, in its order; for each, the pair that it was reached from, and by which step.
struct Search {
    order: [u16; PAIRS],
    count: usize,
    seen: [bool; PAIRS],
    link: [u16; PAIRS], // PAIRS where the search began
    step: [Step; PAIRS],
}

impl Search {
    /// Begins at all pairs of the given states; sees only allowed pairs.
    fn new(steps: &Steps, states: &[usize], allowed: &[bool; PAIRS]) -> Search {
        let mut search = Search { order: [0; PAIRS], count: 0, seen: [false; PAIRS], link: [0; PAIRS], step: [STAY; PAIRS] };
        pairs(states).for_each(|pair| search.offer(pair, PAIRS, STAY, allowed));
        let mut place = 0;
        while place < search.count {
            let pair = search.order[place] as usize;
            steps.find(pair, |step, to| {
                search.offer(to, pair, step, allowed);
                false
            });
            place += 1;
        }
        search
    }

    #[inline(always)]
    fn offer(&mut self, pair: usize, link: usize, step: Step, allowed: &[bool; PAIRS]) {
        if allowed[pair] && !self.seen[pair] {
            self.order[self.count] = pair as u16;
            self.count += 1;
            self.seen[pair] = true;
            self.link[pair] = link as u16;
            self.step[pair] = step;
        }
    }

    fn found(&self) -> impl Iterator<Item = usize> + '_ {
        self.order[..self.count].iter().map(|&pair| pair as usize)
    }

    /// The steps from a pair back to where the search began; the last is STAY.
    fn way(&self, pair: usize) -> impl Iterator<Item = Step> + '_ {
        let link = move |&pair: &usize| Some(self.link[pair] as usize).filter(|&link| link < PAIRS);
        std::iter::successors(Some(pair), link).map(|pair| self.step[pair])
    }
}

/// What each transition writes; NONE writes nothing.
struct Outputs {
    codes: [[u8; 8]; NONE + 1],
    count: [u8; NONE + 1],
}

impl Outputs {
    fn new(transducer: &Transducer) -> Outputs {
        let mut outputs = Outputs { codes: [[0; 8]; NONE + 1], count: [0; NONE + 1] };
        for (number, transition) in transducer.transitions.iter().enumerate() {
            outputs.codes[number] = transition.codes;
            outputs.count[number] = transition.count as u8;
        }
        outputs
    }

    /// Appends the output of a transition: all eight places at once, then cut to its length.
    fn append(&self, number: u16, text: &mut Vec<u8>) {
        text.extend_from_slice(&self.codes[number as usize]);
        text.truncate(text.len() - 8 + self.count[number as usize] as usize);
    }
}

/// The ways out of the useful pairs.
struct Ways<'a> {
    outputs: &'a Outputs,
    out: &'a Search,
    gap: [i16; PAIRS],         // |y| - |x|: the length of `right`; below 0, that of `left`
    writes: [[u16; PAIRS]; 2], // for each side, the first pair of the way whose step writes there
}

impl<'a> Ways<'a> {
    fn new(outputs: &'a Outputs, out: &'a Search) -> Ways<'a> {
        let mut ways = Ways { outputs, out, gap: [0; PAIRS], writes: [[0; PAIRS]; 2] };
        for pair in out.found().filter(|&pair| out.link[pair] < PAIRS as u16) {
            let next = out.link[pair] as usize;
            let counts = out.step[pair].map(|number| outputs.count[number as usize] as i16);
            ways.gap[pair] = ways.gap[next] + counts[RIGHT] - counts[LEFT];
            for side in [LEFT, RIGHT] {
                ways.writes[side][pair] = if counts[side] > 0 { pair as u16 } else { ways.writes[side][next] };
            }
        }
        ways
    }

    /// Appends the first codes that a side of the way out of a pair writes: so many, or none if the number is below 0.
    fn append(&self, side: usize, mut pair: usize, length: i16, text: &mut Vec<u8>) {
        let end = text.len() + length.max(0) as usize;
        while text.len() < end {
            let writing = self.writes[side][pair] as usize;
            self.outputs.append(self.out.step[writing][side], text);
            pair = self.out.link[writing] as usize;
        }
        text.truncate(end);
    }

    /// Whether the equation of a step from i to j holds: first by the lengths, then by the codes.
    #[inline(always)]
    fn equal(&self, i: usize, step: Step, j: usize, texts: &mut [Vec<u8>; 2]) -> bool {
        let [a, b] = step.map(usize::from);
        if self.gap[i] + self.outputs.count[a] as i16 != self.outputs.count[b] as i16 + self.gap[j] {
            return false;
        }
        if self.gap[i] == 0 && self.gap[j] == 0 {
            return self.outputs.codes[a] == self.outputs.codes[b];
        }
        self.equal_codes(i, step, j, texts)
    }

    #[inline(never)]
    fn equal_codes(&self, i: usize, step: Step, j: usize, texts: &mut [Vec<u8>; 2]) -> bool {
        texts.iter_mut().for_each(Vec::clear);
        let [x, y] = texts;
        self.append(RIGHT, i, self.gap[i], x);
        self.outputs.append(step[LEFT], x);
        self.append(LEFT, j, -self.gap[j], x);
        self.append(LEFT, i, -self.gap[i], y);
        self.outputs.append(step[RIGHT], y);
        self.append(RIGHT, j, self.gap[j], y);
        x == y
    }

    /// A step from i to j whose equation fails, or a start pair i that is not empty, with STAY and j = i.
    fn failing(&self, steps: &Steps, starts: &[usize]) -> Option<(usize, Step, usize)> {
        let mut is_start = [false; PAIRS];
        pairs(starts).for_each(|pair| is_start[pair] = true);
        let mut texts = [(); 2].map(|()| Vec::with_capacity(8 * PAIRS));
        self.out.found().find_map(|i| {
            if is_start[i] && self.gap[i] != 0 {
                return Some((i, STAY, i));
            }
            let (step, j) = steps.find(i, |step, j| self.out.seen[j] && !self.equal(i, step, j, &mut texts))?;
            Some((i, step, j))
        })
    }

    /// Whether the two sides of a walk write different outputs: the way into i, a step, the way out of j.
    fn differs(&self, into: &Search, i: usize, step: Step, j: usize) -> bool {
        let mut walk: Vec<Step> = into.way(i).collect();
        walk.reverse();
        walk.push(step);
        walk.extend(self.out.way(j));
        let mut texts = [(); 2].map(|()| Vec::with_capacity(8 * walk.len()));
        for step in walk {
            self.outputs.append(step[LEFT], &mut texts[LEFT]);
            self.outputs.append(step[RIGHT], &mut texts[RIGHT]);
        }
        texts[LEFT] != texts[RIGHT]
    }
}

/// Whether a held table is split, and u.
pub fn decide(held: &Held) -> (bool, usize) {
    let transducer = read(held);
    let leaving = Steps::new(&transducer, |transition| (transition.source, transition.target));
    let entering = Steps::new(&transducer, |transition| (transition.target, transition.source));
    let begun = Search::new(&leaving, &transducer.starts, &[true; PAIRS]);
    let out = Search::new(&entering, &transducer.finals, &begun.seen);
    let outputs = Outputs::new(&transducer);
    let ways = Ways::new(&outputs, &out);
    let Some((i, step, j)) = ways.failing(&leaving, &transducer.starts) else { return (false, out.count) };
    let into = Search::new(&leaving, &transducer.starts, &out.seen);
    assert!(ways.differs(&into, i, step, j) || ways.differs(&into, i, STAY, i), "an equation fails, and no outputs differ");
    (true, out.count)
}
