//! Reads a table in plain Rust, for all yardsticks: held, or a file; and writes the file of a held one. A table must be valid: nothing is checked.

/// The places of a held table (include/yotselina.h).
pub const HELD: usize = 3_171;
pub const STATES: usize = 32;
pub const STARTS_AT: usize = 1;
pub const FINALS_AT: usize = 33;
pub const USEFUL_AT: usize = 65;
pub const COUNT_AT: usize = 97;
pub const LINES_AT: usize = 99;
pub const LINE: usize = 12;

/// The bytes of a held table.
pub type Held = [u8; HELD];

pub struct Transition {
    pub source: usize,
    pub target: usize,
    pub input: u8,
    pub codes: [u8; 8], // 0 behind the output
    pub count: usize,
}

impl Transition {
    pub fn output(&self) -> &[u8] {
        &self.codes[..self.count]
    }
}

pub struct Transducer {
    pub starts: Vec<usize>,
    pub finals: Vec<usize>,
    pub transitions: Vec<Transition>,
    pub states: usize,
}

impl Transducer {
    /// The transitions by a state of theirs: the one that they leave, or the one that they enter.
    pub fn index(&self, state: impl Fn(&Transition) -> usize) -> Vec<Vec<&Transition>> {
        let mut lists = vec![Vec::with_capacity(8); self.states];
        for transition in &self.transitions {
            lists[state(transition)].push(transition);
        }
        lists
    }
}

/// How many lines a held table has.
pub fn line_count(held: &Held) -> usize {
    held[COUNT_AT] as usize + 256 * held[COUNT_AT + 1] as usize
}

/// The lines of a held table, as many as it counts.
pub fn lines(held: &Held) -> impl Iterator<Item = &[u8; LINE]> {
    held[LINES_AT..].as_chunks().0.iter().take(line_count(held))
}

pub fn read(held: &Held) -> Transducer {
    let states = |from: usize| (0..STATES).filter(|state| held[from + state] == 1).collect();
    let transition = |&[source, target, input, count, codes @ ..]: &[u8; LINE]| Transition {
        source: source as usize,
        target: target as usize,
        input,
        codes,
        count: count as usize,
    };
    Transducer { starts: states(STARTS_AT), finals: states(FINALS_AT), transitions: lines(held).map(transition).collect(), states: held[0] as usize }
}

struct Reader<'a>(&'a [u8]);

impl Reader<'_> {
    fn skip(&mut self) {
        self.0 = &self.0[1..];
    }

    fn number(&mut self) -> usize {
        let (field, rest) = self.0.split_at(4);
        self.0 = rest;
        field.iter().filter(|&&byte| byte != b' ').fold(0, |number, &byte| 10 * number + (byte - b'0') as usize)
    }

    /// The numbers of a record, by what reads its fields.
    fn record<T>(&mut self, fields: impl FnOnce(&mut Self) -> T) -> T {
        self.skip();
        let found = fields(self);
        self.skip();
        found
    }

    fn transition(&mut self) -> Transition {
        let (source, target, input, count) = (self.number(), self.number(), self.number() as u8, self.number());
        let mut codes = [0; 8];
        codes[..count].iter_mut().for_each(|code| *code = self.number() as u8);
        Transition { source, target, input, codes, count }
    }
}

pub fn read_file(file: &[u8]) -> Transducer {
    let mut reader = Reader(file);
    let [states, starts, finals, transitions] = reader.record(|fields| [(); 4].map(|()| fields.number()));
    Transducer {
        starts: (0..starts).map(|_| reader.record(Reader::number)).collect(),
        finals: (0..finals).map(|_| reader.record(Reader::number)).collect(),
        transitions: (0..transitions).map(|_| reader.record(Reader::transition)).collect(),
        states,
    }
}

/// The file of a held table.
pub fn write(held: &Held) -> Vec<u8> {
    let Transducer { starts, finals, transitions, states } = read(held);
    let mut text = Vec::with_capacity(18 + 6 * (starts.len() + finals.len()) + 50 * transitions.len());
    put(&mut text, b'T', [states, starts.len(), finals.len(), transitions.len()]);
    starts.iter().for_each(|&state| put(&mut text, b'S', [state]));
    finals.iter().for_each(|&state| put(&mut text, b'F', [state]));
    for line in &transitions {
        let numbers = [line.source, line.target, line.input as usize, line.count];
        put(&mut text, b'L', numbers.into_iter().chain(line.output().iter().map(|&code| code as usize)));
    }
    text
}

/// Appends a record; its numbers have three digits at most.
fn put(text: &mut Vec<u8>, letter: u8, numbers: impl IntoIterator<Item = usize>) {
    let digit = |number: usize, place: usize| if number >= place || place == 1 { b'0' + (number / place % 10) as u8 } else { b' ' };
    text.push(letter);
    numbers.into_iter().for_each(|number| text.extend([b' ', digit(number, 100), digit(number, 10), digit(number, 1)]));
    text.push(b'\n');
}
