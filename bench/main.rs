//! Measures the library side by side with plain Rust and OpenFst on the same tables, in one process, and prints FIGURES.md.
//! `bench REPETITIONS VERSIONS`; bench/run builds and starts it. README.md says how it is measured.

mod accepts;
mod edits;
mod equations;
mod floor;
mod join;
mod library;
mod measure;
mod openfst;
mod plain;
mod report;
mod residue;
mod search;
mod stack;
mod tables;

use edits::Edit;
use library::Buffers;
use measure::{compare, Call};
use openfst::{By, Machine};
use plain::{Held, HELD, STATES, USEFUL_AT};
use report::{grouped, plain, Row, Section, FLOOR, OPENFST, RESIDUE};
use std::hint::black_box;
use tables::*;

fn hold(table: &Table) -> Held {
    library::hold(&table.file())
}

fn line_count(table: &Held) -> String {
    plain::line_count(table).to_string()
}

// --- the verdict -----------------------------------------------------------------------------------------------------

/// A name, whether the table is split, and the table.
type Tables = Vec<(String, bool, Table)>;

fn verdict_tables() -> Vec<(&'static str, Tables)> {
    let single = |name: &str, table: Table| vec![(name.to_string(), false, table)];
    let split = |name: &str, table: Table| vec![(name.to_string(), true, table)];
    let both = |name: &str, table: Table| [single(name, table.clone()), split(name, table.changed())].concat();
    let ring_row = |states, k, codes| (format!("ring of {states}, k = {k}, codes a line: {codes}"), false, ring(states, k / states, codes));
    let small = [single("one state, no lines", one_state()), split("P", p()), single("D", d([5, 6])), split("D", d([6, 5]))].concat();
    let cyclic = [
        both("cycles of 15 and 17, 8 lines each", cycles(15, 17, 8)),
        both("cycles of 15 and 17, 1 line each", cycles(15, 17, 1)),
        both("ring of 32, 8 lines each", ring(32, 8, 8)),
        single("ring of 32, 8 lines each, no codes", ring(32, 8, 0)),
    ];
    let wide = [
        single("deterministic", deterministic()),
        split("deterministic but for one line", deterministic().twin().changed()),
        both("dense, 16 states all to all, 1 input", dense(16, 1)),
        both("dense, 32 states, 2 inputs", dense(32, 2)),
        both("dense, 32 states, 8 inputs", dense(32, 8)),
        single("dense, 32 states, 8 inputs, no final state", dense(32, 8).without_finals()),
    ];
    let late = [
        both("delayed by 480 codes, 1 line each", delayed(4, 1)),
        both("delayed by 480 codes, 3 lines each", delayed(4, 3)),
        both("delayed by 960 codes, 1 line each", delayed(8, 1)),
        single("delayed by 248 codes, lines that read nothing", silent()),
    ];
    vec![
        ("Small tables of document 01", small),
        ("Cycles and rings", cyclic.concat()),
        ("Deterministic and dense, 256 lines", wide.concat()),
        ("Delayed: one side is ahead by so many codes before they are level again", late.concat()),
        ("Growth with n", [2, 4, 8, 16, 32].map(|states| ring_row(states, 64, 4)).to_vec()),
        ("Growth with k", [16, 32, 64, 128, 256].map(|k| ring_row(16, k, 4)).to_vec()),
        ("Growth with the codes of a line", [0, 1, 2, 4, 8].map(|codes| ring_row(16, 128, codes)).to_vec()),
    ]
}

fn verdict_row(name: &str, split: bool, table: Table, repetitions: usize, buffers: &mut Buffers) -> Row {
    let table = hold(&table);
    let (found, useful) = residue::decide(&table);
    assert_eq!(found, split, "{name}: residue.rs does not give the verdict that the table was made for");
    let facts = [["single", "split"][split as usize].to_string(), useful.to_string()];
    let ours = || compare(name, "the library", buffers.verdict(black_box(&table)), (0, split as u64, useful as u64));
    let residue = || compare(name, "residue.rs", residue::decide(black_box(&table)), (split, useful));
    let floor = || {
        let table = black_box(&table);
        compare(name, "the floor", floor::taken(table).then(|| equations::decide(table)), Some((split, useful)))
    };
    Row::measured(name, facts, repetitions, Box::new(ours), vec![vec![Box::new(residue)], vec![Box::new(floor)]])
}

fn verdict_section(repetitions: usize, buffers: &mut Buffers) -> Section {
    let mut section = Section::new("Verdict", "yotselina_verdict", vec![RESIDUE, FLOOR], ["verdict", "u"]);
    for (title, tables) in verdict_tables() {
        section.add(title, tables.into_iter().map(|(name, split, table)| verdict_row(&name, split, table, repetitions, buffers)));
    }
    section
}

// --- the translator --------------------------------------------------------------------------------------------------

type Translations = Vec<(&'static str, Table, Vec<u8>)>;

/// On single tables only: on others the sides may follow different paths.
fn translations() -> Vec<(&'static str, Translations)> {
    let lengths = |name, table: Table, inputs| [1, 16, 255].map(|length| (name, table.clone(), word(inputs, length)));
    let smallest = vec![("one state, no lines", one_state(), word(1, 0)), ("D", d([5, 6]), word(2, 2))];
    let small = [lengths("one loop", loops(1, 1), 1), lengths("16 loops", loops(16, 16), 16)];
    let deterministic = [lengths("250 loops, 250 inputs", loops(250, 250), 250), lengths("deterministic, 256 lines", deterministic(), 8)];
    let dense_tables = [
        lengths("dense, 16 states all to all, 1 input", dense(16, 1), 1),
        lengths("dense, 32 states, 2 inputs", dense(32, 2), 2),
        lengths("dense, 32 states, 8 inputs", dense(32, 8), 8),
        lengths("dense, 32 states, 8 inputs, no final state", dense(32, 8).without_finals(), 8),
    ];
    let rings = [lengths("ring of 32, 1 line each", ring(32, 1, 8), 1), lengths("ring of 32, 8 lines each", ring(32, 8, 8), 1)];
    let longest = vec![
        ("cycles of 15 and 17, 8 lines each", cycles(15, 17, 8), word(1, 255)),
        ("cycles of 15 and 17, 1 line each", cycles(15, 17, 1), word(1, 255)),
        ("delayed by 480 codes, 3 lines each", delayed(4, 3), delayed_word(4)),
        ("delayed by 960 codes, 1 line each", delayed(8, 1), delayed_word(8)),
    ];
    vec![
        ("Small tables", smallest.into_iter().chain(small.concat()).collect()),
        ("Deterministic", deterministic.concat()),
        ("Dense", dense_tables.concat()),
        ("Rings", rings.concat()),
        ("Silent: 32 states at every position, lines that read nothing", lengths("silent", silent(), 1).into()),
        ("Cycles and delayed", longest),
    ]
}

fn translation_row(name: &str, table: Table, word: &[u8], repetitions: usize, buffers: &mut Buffers) -> Row {
    let table = hold(&table);
    let found = search::translate(&table, word);
    let expected = found.as_deref();
    let facts = [word.len().to_string(), expected.map_or("unread".into(), |output| grouped(output.len()))];
    let ours = || compare(name, "the library", buffers.translate(black_box(&table), black_box(word)), expected.ok_or(library::UNREAD));
    let machine = Machine::hold(&table);
    let openfst = |by: By| -> Option<Call> {
        let (machine, mut output) = (machine.as_ref()?, vec![0; library::OUTPUT]);
        Some(Box::new(move || compare(name, "OpenFst", machine.translate(black_box(word), by, &mut output), expected)))
    };
    let (mut search, mut output) = (Box::new(floor::Search::new()), vec![0; library::OUTPUT]);
    let floor = || {
        let length = search.translate(black_box(&table), black_box(word), &mut output);
        compare(name, "the floor", length.map(|length| &output[..length]), expected)
    };
    let plain_rust = || compare(name, "search.rs", search::translate(black_box(&table), black_box(word)).as_deref(), expected);
    let others: [Vec<Call>; 3] =
        [[By::Queue, By::Stack].into_iter().filter_map(openfst).collect(), vec![Box::new(floor)], vec![Box::new(plain_rust)]];
    Row::measured(name, facts, repetitions, Box::new(ours), others.into())
}

fn translation_section(repetitions: usize, buffers: &mut Buffers) -> Section {
    let yardsticks = vec![OPENFST, FLOOR, plain("search.rs")];
    let mut section = Section::new("Translation", "yotselina_translate", yardsticks, ["codes read", "codes written"]);
    for (title, rows) in translations() {
        section.add(title, rows.into_iter().map(|(name, table, word)| translation_row(name, table, &word, repetitions, buffers)));
    }
    section
}

// --- the word test ---------------------------------------------------------------------------------------------------

/// Whether some accepting path of the table reads the one word and writes the other: yes or no, as the words were made.
struct Question {
    name: String,
    table: Table,
    input: Vec<u8>,
    output: Vec<u8>,
    yes: bool,
}

/// Most tables twice: with the words of an accepting path, and with another last output code, so that no path has them.
fn questions() -> Vec<(&'static str, Vec<Question>)> {
    let yes = |name: &str, table: &Table, input: &[u8], output: &[u8]| Question {
        name: name.to_string(),
        table: table.clone(),
        input: input.to_vec(),
        output: output.to_vec(),
        yes: true,
    };
    let both = |name: &str, table: Table, input: &[u8], output: &[u8]| {
        let (last, before) = output.split_last().unwrap();
        let other = [before, &[251 - last]].concat();
        [yes(name, &table, input, output), Question { yes: false, ..yes(name, &table, input, &other) }]
    };
    let along = |name: &str, table: Table, input: &[u8]| {
        let output = search::translate(&library::hold(&table.file()), input).unwrap();
        both(name, table, input, &output)
    };
    let (ones, fives) = (word(1, library::ACCEPTS_INPUT), vec![5; library::ACCEPTS_OUTPUT]);
    let growth = |read: usize, written: usize| yes("32 states by a ring, scattered", &everywhere(5, 3), &ones[..read], &fives[..written]);
    let small = [both("P", p(), &ones, &[5, 6].repeat(32)[..63]), along("D", d([5, 6]), &word(2, 2))];
    let all = [
        both("32 states by a ring, rising", everywhere(1, 1), &ones, &fives),
        both("32 states by a ring, falling", everywhere(1, 31), &ones, &fives),
        both("32 states by a ring, scattered", everywhere(5, 3), &ones, &fives),
        both("32 states by 8 lines each", everywhere_by_all(), &ones, &fives),
        both("32 states by a ring, 222 lines with another eighth code", everywhere_and_nearly(), &ones, &fives),
        both("one state, 256 lines", one_state_by_all(), &ones, &fives),
    ];
    let few = [
        both("one path", one_path(), &ones, &[vec![5; 124], vec![6; 3]].concat()),
        along("ring of 32, 8 lines each", ring(32, 8, 2), &ones),
        along("cycles of 15 and 17, 8 lines each", cycles(15, 17, 8).cut(2), &ones[..60]),
        along("deterministic", deterministic().cut(2), &word(8, 63)),
        along("dense, 16 states all to all, 1 input", dense(16, 1).cut(2), &ones),
        along("dense, 32 states, 2 inputs", dense(32, 2).cut(2), &word(2, 63)),
        along("dense, 32 states, 8 inputs", dense(32, 8).cut(2), &word(8, 63)),
        along("delayed, 3 lines each", delayed(4, 3).cut(2), &delayed_word(4)[..63]),
    ];
    let eight = [
        along("ring of 32, 8 lines each", ring(32, 8, 8), &ones[..15]),
        along("cycles of 15 and 17, 8 lines each", cycles(15, 17, 8), &ones[..15]),
        along("deterministic", deterministic(), &word(8, 15)),
        along("dense, 16 states all to all, 1 input", dense(16, 1), &ones[..15]),
    ];
    let silent = along("lines that read nothing", silent().cut(1), &ones[..3]);
    let smallest = yes("one state, no lines", &one_state(), &[], &[]);
    vec![
        ("Small tables of document 01", [smallest].into_iter().chain(small.into_iter().flatten()).collect()),
        ("All states at all positions of both words", all.into_iter().flatten().collect()),
        ("Few states at most positions, 1 to 3 codes a line", few.into_iter().flatten().chain(silent).collect()),
        ("The same, 8 codes a line", eight.into_iter().flatten().collect()),
        ("Growth with the words", [(1, 2), (4, 8), (16, 32), (63, 127)].map(|(read, written)| growth(read, written)).into()),
    ]
}

fn question_row(question: Question, repetitions: usize, buffers: &mut Buffers) -> Row {
    let Question { name, table, input, output, yes } = question;
    let table = hold(&table);
    assert_eq!(accepts::accepts(&table, &input, &output), yes, "{name}: accepts.rs does not give the answer that the words were made for");
    let facts = [format!("{}, {}", input.len(), output.len()), ["no", "yes"][yes as usize].to_string()];
    let given = || (black_box(&table), black_box(&input[..]), black_box(&output[..]));
    let ours = || {
        let (table, input, output) = given();
        compare(&name, "the library", buffers.accepts(table, input, output), (0, yes as u64))
    };
    let floor = || {
        let (table, input, output) = given();
        compare(&name, "the floor", floor::taken(table) && accepts::accepts(table, input, output), yes)
    };
    Row::measured(&name, facts, repetitions, Box::new(ours), vec![vec![Box::new(floor)]])
}

fn question_section(repetitions: usize, buffers: &mut Buffers) -> Section {
    let mut section = Section::new("Word test", "yotselina_accepts", vec![FLOOR], ["codes read, written", "answer"]);
    for (title, rows) in questions() {
        section.add(title, rows.into_iter().map(|question| question_row(question, repetitions, buffers)));
    }
    section
}

// --- the join --------------------------------------------------------------------------------------------------------

type Joins = Vec<(&'static str, Table, Table)>;

fn joins() -> Vec<(&'static str, Joins)> {
    let (wide, narrow) = (dense(32, 1), dense(32, 8));
    let small = vec![
        ("one state, no lines, before the same", one_state(), one_state()),
        ("P before P", p(), p()),
        ("2 loops before D", loops(2, 2).echo(), d([5, 6])),
    ];
    let full = vec![
        ("rings of 8 and 4, 4 lines each, steps alone", ring(8, 4, 0), ring(4, 4, 8).unread()),
        ("ring of 32, 8 lines each, before one loop", ring(32, 8, 1).echo(), loops(1, 1)),
        ("one loop before ring of 32, 8 lines each", loops(1, 1).echo(), ring(32, 8, 8)),
        ("250 loops before dense, 32 states, 8 inputs", loops(250, 250).echo(), narrow.clone()),
        ("250 loops before deterministic", loops(250, 250).echo(), deterministic()),
        ("dense, 8 states, before dense, 4 states, 240 inputs", dense(8, 240).first(240).echo(), dense(4, 240).first(240)),
        ("16 loops before 16", loops(16, 1).echo(), loops(16, 1)),
    ];
    let reached = vec![
        ("rows of 32, steps alone, 4 joined pairs", row(32), row(32).unread()),
        ("dense, 32 states, 1 input, before the same without final state", wide.clone().echo(), wide.clone().without_finals()),
        ("dense, 32 states, 8 inputs, before the same without final state", narrow.clone().echo(), narrow.clone().without_finals()),
    ];
    let (loops_astray, lost) = (astray(1, 254, 1, 1), astray(1, 16, 239, 1));
    let searched = vec![
        ("astray: 16 loops and 239 lines that do not finish, before the same", lost.clone().echo(), lost),
        ("astray: 250 loops, 250 inputs, before the same", astray(1, 250, 5, 250).echo(), astray(1, 250, 5, 250)),
        ("astray: 254 loops before 254", loops_astray.clone().echo(), loops_astray.clone()),
        ("astray: 30 states, 254 lines, before 254 loops", astray(30, 254, 1, 1).echo(), loops_astray),
        ("astray: 8 states, 254 lines, before 4 states, 31 inputs", astray(8, 254, 1, 31).echo(), astray(4, 254, 1, 31)),
        ("astray: 30 states, 254 lines, before the same", astray(30, 254, 1, 1).echo(), astray(30, 254, 1, 1)),
    ];
    let refused = vec![
        ("dense, 32 states, 1 input, before the same", wide.clone().echo(), wide),
        ("dense, 32 states, 8 inputs, before the same", narrow.clone().echo(), narrow),
        ("rings of 32, steps alone", ring(32, 8, 0), ring(32, 8, 8).unread()),
        ("256 loops before 256", loops(256, 1).echo(), loops(256, 1)),
        ("dense, 8 states, before dense, 4 states, 8 inputs", dense(8, 8).echo(), dense(4, 8)),
    ];
    vec![
        ("Small tables", small),
        ("Up to 32 joined pairs and 256 lines", full),
        ("Up to 1,024 reached pairs, few or none joined", reached),
        ("Refused with 16 or 17", refused),
        ("Astray: both searches go to the end", searched),
    ]
}

/// OpenFst's machines of two tables, whose join must be taken; they must read the same of some words as the joined table.
fn composed(name: &str, first: &Held, second: &Held, joined: &Held) -> Option<[Machine; 2]> {
    let machines = [Machine::hold_first(first)?, Machine::hold(second)?];
    let composition = machines[0].join(&machines[1]);
    for (inputs, length) in [(1, 0), (1, 1), (1, 2), (2, 5), (8, 8), (250, 250)] {
        let word = word(inputs, length);
        compare(name, "OpenFst", composition.reads(&word), search::translate(joined, &word).is_some());
    }
    Some(machines)
}

fn join_row(name: &str, tables: [Table; 2], repetitions: usize) -> Row {
    let [first, second] = tables.map(|table| hold(&table));
    let expected = join::join(&first, &second);
    let facts = match &expected {
        Ok(joined) => [joined[0].to_string(), line_count(joined)],
        Err(number) => ["none".to_string(), format!("refused {number}")],
    };
    let given = || (black_box(&first), black_box(&second));
    let mut result = [0; HELD];
    let ours = || {
        let (first, second) = given();
        let done = library::join(first, second, &mut result);
        compare(name, "the library", done.map(|()| &result), expected.as_ref().map_err(|&number| number))
    };
    let floor = || {
        let (first, second) = given();
        let joined = if floor::taken(first) && floor::taken(second) { join::join(first, second) } else { Err(8) };
        compare(name, "the floor", joined.as_ref(), expected.as_ref())
    };
    let machines = expected.as_ref().ok().and_then(|joined| composed(name, &first, &second, joined));
    let openfst = machines.as_ref().map(|[first, second]| -> Call { Box::new(move || drop(black_box(black_box(first).join(black_box(second))))) });
    Row::measured(name, facts, repetitions, Box::new(ours), vec![openfst.into_iter().collect(), vec![Box::new(floor)]])
}

fn join_section(repetitions: usize) -> Section {
    let mut section = Section::new("Join", "yotselina_join", vec![OPENFST, FLOOR], ["states", "lines"]);
    for (title, rows) in joins() {
        section.add(title, rows.into_iter().map(|(name, first, second)| join_row(name, [first, second], repetitions)));
    }
    section
}

// --- edits -----------------------------------------------------------------------------------------------------------

const SHORT_LINE: [u8; 12] = [0; 12];
const LONG_LINE: [u8; 12] = [0, 0, 250, 8, 250, 250, 250, 250, 250, 250, 250, 250];

type Edits = Vec<(&'static str, Table, Edit)>;

fn appends() -> Edits {
    vec![
        ("one state, no lines", one_state(), Edit::Append(SHORT_LINE)),
        ("D", d([5, 6]), Edit::Append(LONG_LINE)),
        ("255 loops", loops(255, 1), Edit::Append(LONG_LINE)),
        ("dense, 32 states, 8 inputs, but one line", dense(32, 8).first(255), Edit::Append(LONG_LINE)),
        ("dense, 32 states, 8 inputs", dense(32, 8), Edit::Append(LONG_LINE)),
    ]
}

fn removals() -> Edits {
    vec![
        ("one loop, its line", loops(1, 1), Edit::Remove(0)),
        ("D, the first line", d([5, 6]), Edit::Remove(0)),
        ("256 loops, the first line", loops(256, 1), Edit::Remove(0)),
        ("dense, 32 states, 8 inputs, the first line", dense(32, 8), Edit::Remove(0)),
        ("dense, 32 states, 8 inputs, the last line", dense(32, 8), Edit::Remove(255)),
        ("dense, 32 states, 8 inputs, no line", dense(32, 8), Edit::Remove(256)),
    ]
}

/// An edit is done to a copy of the table, which is made anew before each.
fn edit_row(name: &str, table: Table, edit: Edit, repetitions: usize) -> Row {
    let table = hold(&table);
    let mut edited = table;
    let expected = edits::edit(&mut edited, edit).map(|()| edited);
    let facts = [line_count(&table), expected.map_or_else(|number| format!("refused {number}"), |edited| line_count(&edited))];
    let call = |side: &'static str, call: fn(&mut Held, Edit) -> Result<(), u32>| -> Call {
        let mut copy = table;
        Box::new(move || {
            copy.copy_from_slice(black_box(&table));
            let done = call(&mut copy, black_box(edit));
            compare(name, side, done.map(|()| &copy), expected.as_ref().map_err(|&number| number))
        })
    };
    Row::measured(name, facts, repetitions, call("the library", library::edit), vec![vec![call("the floor", edits::edit)]])
}

fn edit_section(title: &'static str, call: &'static str, rows: Edits, repetitions: usize) -> Section {
    let mut section = Section::new(title, call, vec![FLOOR], ["lines", "lines then"]);
    section.add("Small and full tables", rows.into_iter().map(|(name, table, edit)| edit_row(name, table, edit, repetitions)));
    section
}

// --- files and states ------------------------------------------------------------------------------------------------

fn some_tables() -> [(&'static str, Table); 4] {
    [
        ("one state, no lines", one_state()),
        ("D", d([5, 6])),
        ("ring of 32, 8 lines each", ring(32, 8, 8)),
        ("dense, 32 states, 8 inputs", dense(32, 8)),
    ]
}

/// A section of one call on some tables. Its row is made of the name, the table's file, the held table and two facts on it.
fn table_section(
    title: &'static str,
    call: &'static str,
    yardstick: report::Yardstick,
    mut row: impl FnMut(&str, &[u8], &Held, [String; 2]) -> Row,
) -> Section {
    let mut section = Section::new(title, call, vec![yardstick], ["bytes of the file", "lines"]);
    let rows = some_tables().map(|(name, table)| {
        let (file, held) = (table.file(), hold(&table));
        row(name, &file, &held, [grouped(file.len()), line_count(&held)])
    });
    section.add("Small and full tables", rows.into_iter());
    section
}

fn check_section(repetitions: usize) -> Section {
    table_section("Checking a file", "yotselina_check", plain("plain.rs"), |name, file, _, facts| {
        let ours = || compare(name, "the library", library::check(black_box(file)), 0);
        let plain_rust = || drop(black_box(plain::read_file(black_box(file))));
        Row::measured(name, facts, repetitions, Box::new(ours), vec![vec![Box::new(plain_rust)]])
    })
}

fn read_section(repetitions: usize) -> Section {
    table_section("Reading", "yotselina_read", plain("plain.rs"), |name, file, held, facts| {
        let mut table = [0; HELD];
        let ours = || {
            compare(name, "the library", library::read(black_box(file), &mut table), 0);
            compare(name, "the library", &table, held)
        };
        let plain_rust = || drop(black_box(plain::read_file(black_box(file))));
        Row::measured(name, facts, repetitions, Box::new(ours), vec![vec![Box::new(plain_rust)]])
    })
}

fn write_section(repetitions: usize, buffers: &mut Buffers) -> Section {
    table_section("Writing", "yotselina_write", FLOOR, |name, file, held, facts| {
        let ours = || compare(name, "the library", buffers.write(black_box(held)), Ok(file));
        let floor = || {
            let held = black_box(held);
            compare(name, "the floor", floor::taken(held).then(|| plain::write(held)).as_deref(), Some(file))
        };
        Row::measured(name, facts, repetitions, Box::new(ours), vec![vec![Box::new(floor)]])
    })
}

fn useful_section(repetitions: usize, buffers: &mut Buffers) -> Section {
    table_section("Useful states", "yotselina_useful_states", FLOOR, |name, _, held, facts| {
        let flags = &held[USEFUL_AT..USEFUL_AT + STATES];
        let bits = flags.iter().rev().fold(0, |bits, &flag| bits << 1 | flag as u32);
        let ours = || compare(name, "the library", buffers.useful_states(black_box(held)), Ok(flags));
        let floor = || {
            let held = black_box(held);
            compare(name, "the floor", floor::taken(held).then(|| floor::useful(held)), Some(bits))
        };
        Row::measured(name, facts, repetitions, Box::new(ours), vec![vec![Box::new(floor)]])
    })
}

/// The floor of a look is a copy of 32 bytes.
fn look_section(repetitions: usize, buffers: &mut Buffers) -> Section {
    table_section("The look", "yotselina_look", plain("a copy"), |name, _, held, facts| {
        let flags = &held[USEFUL_AT..USEFUL_AT + STATES];
        let mut copy = vec![0; STATES];
        let ours = || compare(name, "the library", buffers.look(black_box(held)), Ok(flags));
        let plain_rust = || {
            copy.copy_from_slice(&black_box(held)[USEFUL_AT..USEFUL_AT + STATES]);
            compare(name, "a copy", &copy[..], flags)
        };
        Row::measured(name, facts, repetitions, Box::new(ours), vec![vec![Box::new(plain_rust)]])
    })
}

// --- memory ----------------------------------------------------------------------------------------------------------

/// What a call is given: a table, its file, an input word, an output word, a table behind the first.
struct Given {
    table: Held,
    file: Vec<u8>,
    word: Vec<u8>,
    output: Vec<u8>,
    second: Held,
}

/// The most stack that each call needs on all tables and words that are measured.
fn print_memory(buffers: &mut Buffers) {
    let single = |table: Table| Given { table: hold(&table), file: table.file(), word: vec![], output: vec![], second: hold(&one_state()) };
    let mut given: Vec<Given> = Vec::new();
    for (_, rows) in translations() {
        given.extend(rows.into_iter().map(|(_, table, word)| Given { word, ..single(table) }));
    }
    for (_, tables) in verdict_tables() {
        given.extend(tables.into_iter().map(|(_, _, table)| single(table)));
    }
    for (_, rows) in questions() {
        given.extend(rows.into_iter().map(|row| Given { word: row.input, output: row.output, ..single(row.table) }));
    }
    for (_, rows) in joins() {
        given.extend(rows.into_iter().map(|(_, first, second)| Given { second: hold(&second), ..single(first) }));
    }
    type Made = fn(&mut Buffers, &Given) -> u32;
    let calls: [(&str, usize, Made); 13] = [
        ("check", 0, |_, given| library::check(&given.file)),
        ("read", HELD, |buffers, given| library::read(&given.file, &mut buffers.table)),
        ("write", library::FILE + 8, |buffers, given| number(buffers.write(&given.table))),
        ("verdict", 5 * library::WITNESS + 2 * library::WITNESS_OUTPUT + 8 * library::VERDICT_ANSWER, |buffers, given| {
            buffers.verdict(&given.table).0
        }),
        ("translate", library::OUTPUT + 8, |buffers, given| number(buffers.translate(&given.table, &given.word))),
        ("accepts", 8, |buffers, Given { table, word, output, .. }| {
            buffers.accepts(table, &word[..word.len().min(library::ACCEPTS_INPUT)], output).0
        }),
        ("useful_states", STATES, |buffers, given| number(buffers.useful_states(&given.table))),
        ("look", STATES, |buffers, given| number(buffers.look(&given.table))),
        ("useful_pairs", library::PAIRS + 8, |buffers, given| buffers.useful_pairs(&given.table)),
        ("append", 0, |buffers, _| number(library::edit(&mut buffers.table, Edit::Append(SHORT_LINE)))),
        ("remove", 0, |buffers, _| number(library::edit(&mut buffers.table, Edit::Remove(0)))),
        ("join", HELD, |buffers, given| number(library::join(&given.table, &given.second, &mut buffers.table))),
        ("difference", 2 * 8, |buffers, given| buffers.difference(&given.file, &given.word)),
    ];
    println!("\n## Memory of each call\n\n| call | stack, bytes | lent buffers, bytes |\n|---|---|---|");
    for (name, bytes, call) in calls {
        let depth = |given: &Given| {
            buffers.table = given.table;
            stack::depth(&mut || {
                let returned = call(buffers, given);
                let expected = returned == 0 || returned == library::UNREAD || library::OTHER_REFUSALS.contains(&(name, returned));
                assert!(expected, "{name} refuses with {returned}");
            })
        };
        let stack = given.iter().map(depth).max().unwrap();
        println!("| `yotselina_{name}` | {} | {} |", grouped(stack), grouped(bytes));
    }
}

fn number<T>(done: Result<T, u32>) -> u32 {
    done.err().unwrap_or(0)
}

fn main() {
    let arguments: Vec<String> = std::env::args().collect();
    let Some(repetitions) = arguments[1].parse().ok().filter(|&number| number > 0) else {
        eprintln!("bench: the number of repetitions is not {}", arguments[1]);
        std::process::exit(2)
    };
    let load = std::fs::read_to_string("/proc/loadavg").unwrap_or_default();
    let load = load.split(' ').next().unwrap();
    let processors = std::thread::available_parallelism().map_or(0, usize::from);
    let buffers = &mut Buffers::new();

    let sections = [
        verdict_section(repetitions, buffers),
        translation_section(repetitions, buffers),
        question_section(repetitions, buffers),
        join_section(repetitions),
        edit_section("Appending", "yotselina_append", appends(), repetitions),
        edit_section("Removing", "yotselina_remove", removals(), repetitions),
        useful_section(repetitions, buffers),
        look_section(repetitions, buffers),
        write_section(repetitions, buffers),
        read_section(repetitions),
        check_section(repetitions),
    ];
    println!("# Figures\n");
    println!("One run of `bench/run`. Repetitions: {repetitions}; {}; processors: {processors}; load at the start: {load}.\n", arguments[2]);
    println!("| library / yardstick | tables, by the library's time | smallest ratio | largest ratio | wanted at most | tables above | worst table by ratio |");
    println!("|---|---|---|---|---|---|---|");
    sections.iter().for_each(Section::print_ratios);
    println!("\n| library | shortest µs | on | longest µs | on |\n|---|---|---|---|---|");
    sections.iter().for_each(Section::print_times);
    println!("\n## Above what is wanted\n\n| library / yardstick | table | ratio | wanted at most | floor / yardstick |\n|---|---|---|---|---|");
    sections.iter().for_each(Section::print_missed);
    sections.iter().for_each(Section::print);
    print_memory(buffers);
}
