//! The tables that are measured, as the bytes of their files.

#[derive(Clone)]
pub struct Transition {
    source: usize,
    target: usize,
    input: usize,
    output: Vec<usize>,
}

#[derive(Clone)]
pub struct Table {
    states: usize,
    starts: Vec<usize>,
    finals: Vec<usize>,
    transitions: Vec<Transition>,
}

fn transition(source: usize, target: usize, input: usize, output: Vec<usize>) -> Transition {
    Transition { source, target, input, output }
}

/// So many output codes that depend on a number.
fn codes(number: usize, count: usize) -> Vec<usize> {
    (0..count).map(|i| 1 + (count * number + i) % 250).collect()
}

impl Table {
    /// The table's file (document 01).
    pub fn file(&self) -> Vec<u8> {
        let record = |letter: &str, numbers: &[usize]| letter.to_string() + &numbers.iter().map(|n| format!("{n:4}")).collect::<String>() + "\n";
        let mut text = record("T", &[self.states, self.starts.len(), self.finals.len(), self.transitions.len()]);
        self.starts.iter().for_each(|&state| text += &record("S", &[state]));
        self.finals.iter().for_each(|&state| text += &record("F", &[state]));
        for transition in &self.transitions {
            text +=
                &record("L", &[&[transition.source, transition.target, transition.input, transition.output.len()], &transition.output[..]].concat());
        }
        text.into_bytes()
    }

    /// The last transition writes another first code.
    pub fn changed(mut self) -> Table {
        let last = self.transitions.last_mut().unwrap();
        let rest = last.output.get(1..).unwrap_or(&[]).to_vec();
        last.output = [vec![251 - last.output.first().unwrap_or(&1)], rest].concat();
        self
    }

    /// The last transition becomes a copy of the one before it.
    pub fn twin(mut self) -> Table {
        self.transitions.pop();
        self.transitions.push(self.transitions.last().unwrap().clone());
        self
    }

    pub fn without_finals(mut self) -> Table {
        self.finals.clear();
        self
    }

    /// Each transition writes what it reads.
    pub fn echo(mut self) -> Table {
        self.transitions.iter_mut().for_each(|transition| transition.output = vec![transition.input]);
        self
    }

    /// No transition reads anything.
    pub fn unread(mut self) -> Table {
        self.transitions.iter_mut().for_each(|transition| transition.input = 0);
        self
    }

    /// The first transitions only.
    pub fn first(mut self, count: usize) -> Table {
        self.transitions.truncate(count);
        self
    }

    /// Each transition writes its first codes only, so many at most.
    pub fn cut(mut self, length: usize) -> Table {
        self.transitions.iter_mut().for_each(|transition| transition.output.truncate(length));
        self
    }
}

/// One state, start and final, and no transitions.
pub fn one_state() -> Table {
    Table { states: 1, starts: vec![0], finals: vec![0], transitions: vec![] }
}

/// Table P of document 01.
pub fn p() -> Table {
    Table { states: 1, starts: vec![0], finals: vec![0], transitions: vec![transition(0, 0, 1, vec![5]), transition(0, 0, 1, vec![6])] }
}

/// Table D of document 01; its last transition writes the codes given.
pub fn d(last: [usize; 2]) -> Table {
    let transitions =
        vec![transition(0, 1, 1, vec![5, 6]), transition(1, 3, 2, vec![]), transition(0, 2, 1, vec![]), transition(2, 3, 2, last.to_vec())];
    Table { states: 4, starts: vec![0], finals: vec![3], transitions }
}

/// One ring in which every state is start and final, each transition several times, writing so many codes.
pub fn ring(states: usize, copies: usize, length: usize) -> Table {
    let transitions = (0..states * copies).map(|i| transition(i / copies, (i / copies + 1) % states, 1, vec![5; length])).collect();
    Table { states, starts: (0..states).collect(), finals: (0..states).collect(), transitions }
}

/// One state, start and final, and so many transitions, which read from 1 on one code more each time, as far as `inputs`.
pub fn loops(count: usize, inputs: usize) -> Table {
    Table { transitions: (0..count).map(|i| transition(0, 0, 1 + i % inputs, codes(i, 8))).collect(), ..one_state() }
}

/// Some states, of which the first is the only start state and the only final one, and so many transitions spread over them; so many (`lost`) from
/// the first to a state that does not finish; and one to it from a state that is never reached. So a search of a join tries every step that it meets.
/// The transitions read from 1 on one code more each time, as far as `inputs`.
pub fn astray(states: usize, count: usize, lost: usize, inputs: usize) -> Table {
    let within = (0..count).map(|i| (i % states, (i % states + 1 + i / states) % states));
    let ends = within.chain(std::iter::repeat((0, states)).take(lost)).chain([(states + 1, 0)]);
    let transitions = ends.enumerate().map(|(i, (source, target))| transition(source, target, 1 + i % inputs, codes(i, 8))).collect();
    Table { states: states + 2, starts: vec![0], finals: vec![0], transitions }
}

/// States in a row, of which the first is the start state and the second the final one.
pub fn row(states: usize) -> Table {
    Table { states, starts: vec![0], finals: vec![1], transitions: (1..states).map(|i| transition(i - 1, i, 1, vec![])).collect() }
}

/// Two cycles that read the same, each transition several times, writing eight codes.
pub fn cycles(first: usize, second: usize, copies: usize) -> Table {
    let cycle =
        |start: usize, size: usize| (0..size * copies).map(move |i| transition(start + i / copies, start + (i / copies + 1) % size, 1, vec![5; 8]));
    Table {
        states: first + second,
        starts: vec![0, first],
        finals: vec![0, first + second - 1],
        transitions: cycle(0, first).chain(cycle(first, second)).collect(),
    }
}

/// 32 states, one start, one transition for each of eight inputs at each state, all final: every word over the inputs is read by one path.
pub fn deterministic() -> Table {
    let transitions = (0..256).map(|i| transition(i / 8, (5 * (i / 8) + i % 8 + 1) % 32, 1 + i % 8, codes(i, 8))).collect();
    Table { states: 32, starts: vec![0], finals: (0..32).collect(), transitions }
}

/// 256 transitions spread over so many states and inputs; every state is start and final; what is written depends on the input alone.
pub fn dense(states: usize, inputs: usize) -> Table {
    let each = 256 / states;
    let transitions = (0..256).map(|i| transition(i / each, (i + i / 32) % states, 1 + i % inputs, codes(i % inputs, 8))).collect();
    Table { states, starts: (0..states).collect(), finals: (0..states).collect(), transitions }
}

/// All transitions but one read nothing: the path through all 32 states goes on at each code of the word.
pub fn silent() -> Table {
    let transitions = (0..32).map(|i| transition(i, (i + 1) % 32, (i == 31) as usize, codes(i, 8))).collect();
    Table { states: 32, starts: vec![0], finals: vec![31], transitions }
}

const AGAIN: usize = 249;
const HALF: usize = 250;

/// Two paths read the word of `delayed_word`. One passes a chain of 16 states, writing 8 codes for each of its 15 transitions, as many times as there
/// are passes, and then waits; the other waits first, and passes the chain then. So the first is ahead by 120 codes for each pass, in
/// the middle of the word, and level at its end. Each transition several times.
pub fn delayed(passes: usize, copies: usize) -> Table {
    let (last, before, behind) = (15, 16, 16 + passes);
    let mut transitions = vec![transition(last, 0, AGAIN, vec![])];
    for pass in 0..passes {
        transitions.extend((0..last).map(|i| transition(i, i + 1, pass + 1, codes(15 * pass + i, 8))));
        for first in [before, behind] {
            transitions.push(transition(first + pass, first + pass, pass + 1, vec![]));
            if pass + 1 < passes {
                transitions.push(transition(first + pass, first + pass + 1, AGAIN, vec![]));
            }
        }
    }
    transitions.push(transition(behind - 1, 0, HALF, vec![]));
    transitions.push(transition(last, behind, HALF, vec![]));
    let transitions = transitions.into_iter().flat_map(|transition| vec![transition; copies]).collect();
    Table { states: 16 + 2 * passes, starts: vec![0, before], finals: vec![last, behind + passes - 1], transitions }
}

/// The only word that both paths of `delayed` read.
pub fn delayed_word(passes: usize) -> Vec<u8> {
    let half = (0..passes).map(|pass| vec![pass as u8 + 1; 15]).collect::<Vec<_>>().join(&(AGAIN as u8));
    [half.clone(), vec![HALF as u8], half].concat()
}

/// A ring of 32 transitions that read and write nothing, and at state 0 two that stay there: one reads 1, one writes 5. So all states are reached at
/// every two positions in words of ones and of fives. The ring leads from state i to state (factor i + step) % 32.
pub fn everywhere(factor: usize, step: usize) -> Table {
    let mut transitions: Vec<_> = (0..32).map(|i| transition(i, (factor * i + step) % 32, 0, vec![])).collect();
    transitions.extend([transition(0, 0, 1, vec![]), transition(0, 0, 0, vec![5])]);
    Table { states: 32, starts: vec![0], finals: vec![31], transitions }
}

/// All states at every two positions, as above, by eight transitions of each state: two that read and write nothing, two that write 5, two that read
/// 1, two that do both.
pub fn everywhere_by_all() -> Table {
    let transitions = (0..256).map(|i| transition(i / 8, (i / 8 + 1 + 5 * (i % 8)) % 32, (i / 4) % 2, vec![5; (i / 2) % 2])).collect();
    Table { states: 32, starts: vec![0], finals: vec![31], transitions }
}

/// The first table with all states at every two positions, and 222 transitions more that write 5 seven times and then 6.
pub fn everywhere_and_nearly() -> Table {
    let mut table = everywhere(1, 1);
    table.transitions.extend((0..222).map(|i| transition(i % 32, (i + 1) % 32, 0, vec![5, 5, 5, 5, 5, 5, 5, 6])));
    table
}

/// One state and 256 transitions of the four kinds: all of them are tried at every two positions.
pub fn one_state_by_all() -> Table {
    let transitions = (0..256).map(|i| transition(0, 0, (i / 2) % 2, vec![5; i % 2])).collect();
    Table { states: 1, starts: vec![0], finals: vec![0], transitions }
}

/// One path for 63 ones and 127 codes: 62 times two fives, then three sixes.
pub fn one_path() -> Table {
    Table { states: 2, starts: vec![0], finals: vec![1], transitions: vec![transition(0, 0, 1, vec![5, 5]), transition(0, 1, 1, vec![6, 6, 6])] }
}

/// A word of so many codes, from 1 to `inputs` in turn.
pub fn word(inputs: usize, length: usize) -> Vec<u8> {
    (0..length).map(|i| (1 + i % inputs) as u8).collect()
}
