//! A unit in small: loads a table file once and prints the library's verdict on it; then does one job after another on the table that it holds.
//!
//!     ./make-library
//!     rustc --edition 2021 -O -o target/example-rust -L native=target/lib -l static=yotselina examples/table.rs
//!     target/example-rust tables/single 1 2
//!     target/example-rust tables/single 1 2 , append 0 3 7 5 6 , 7 , look , remove 4 , write
//!
//! Jobs are parted by commas: the codes of an input word, which is translated; append FROM TO INPUT OUTPUT ..; remove NUMBER; look; write.
//! Exit status: 0 done, 1 the table is split, 2 refused or not read.

use std::io::{Read, Write};
use std::process::ExitCode;

/// The library, as safe functions. What include/yotselina.h asks of a caller (enough places, no overlap, no edit while a table is used) is what
/// references already have.
mod yotselina {
    /// The longest table file, in bytes.
    pub const FILE: usize = 13_202;
    /// Places of a line.
    pub const LINE: usize = 12;
    const TABLE: usize = 3_171;
    const STATES: usize = 32;
    const OUTPUT: usize = 65_528;
    const WITNESS: usize = 2_047;
    const WITNESS_OUTPUT: usize = 16_376;

    extern "C" {
        fn yotselina_read(file: *const u8, file_length: usize, table: *mut u8, table_length: usize) -> u32;
        fn yotselina_write(
            table: *const u8, table_length: usize,
            out: *mut u8, out_length: usize,
            answer: *mut u64, answer_length: usize,
        ) -> u32;
        fn yotselina_verdict(
            table: *const u8, table_length: usize,
            word: *mut u8, word_length: usize,
            path_a: *mut u16, path_a_length: usize,
            path_b: *mut u16, path_b_length: usize,
            output_x: *mut u8, output_x_length: usize,
            output_y: *mut u8, output_y_length: usize,
            answer: *mut u64, answer_length: usize,
        ) -> u32;
        fn yotselina_translate(
            table: *const u8, table_length: usize,
            input: *const u8, input_length: usize,
            output: *mut u8, output_length: usize,
            answer: *mut u64, answer_length: usize,
        ) -> u32;
        fn yotselina_look(table: *const u8, table_length: usize, flags: *mut u8, flags_length: usize) -> u32;
        fn yotselina_append(table: *mut u8, table_length: usize, line: *const u8, line_length: usize) -> u32;
        fn yotselina_remove(table: *mut u8, table_length: usize, number: usize) -> u32;
    }

    /// Why a call was refused: the number of docs/MANUAL.md, and the record of the file, counted from 0.
    #[derive(Debug, Clone, Copy, PartialEq, Eq)]
    pub struct Refusal {
        pub number: u16,
        pub record: u16,
    }

    impl std::fmt::Display for Refusal {
        fn fmt(&self, f: &mut std::fmt::Formatter) -> std::fmt::Result {
            write!(f, "refused with number {}, record {}", self.number, self.record)
        }
    }

    /// Two accepting paths (numbers of lines) that read one word and write different outputs, and how many codes these have in common at the
    /// beginning.
    pub struct Witness {
        pub word: Vec<u8>,
        pub path_a: Vec<u16>,
        pub path_b: Vec<u16>,
        pub output_x: Vec<u8>,
        pub output_y: Vec<u8>,
        pub shared: u64,
    }

    /// u, and a witness where the table is split.
    pub struct Verdict {
        pub useful: u64,
        pub split: Option<Witness>,
    }

    fn done(returned: u32) -> Result<(), Refusal> {
        match returned {
            0 => Ok(()),
            r => Err(Refusal { number: r as u16, record: (r >> 16) as u16 }),
        }
    }

    /// A held table. In each call below every pointer and length are those of one list, and no list that is written overlaps another.
    #[derive(Clone, PartialEq, Eq)]
    pub struct Table([u8; TABLE]);

    impl Table {
        /// The table of a file.
        pub fn read(file: &[u8]) -> Result<Table, Refusal> {
            let mut table = Table([0; TABLE]);
            done(unsafe { yotselina_read(file.as_ptr(), file.len(), table.0.as_mut_ptr(), TABLE) })?;
            Ok(table)
        }

        /// The file of the table.
        pub fn write(&self) -> Result<Vec<u8>, Refusal> {
            let (mut out, mut answer) = (vec![0; FILE], [0; 1]);
            done(unsafe { yotselina_write(self.0.as_ptr(), TABLE, out.as_mut_ptr(), out.len(), answer.as_mut_ptr(), answer.len()) })?;
            out.truncate(answer[0] as usize);
            Ok(out)
        }

        /// Whether every input word has one output at most.
        pub fn verdict(&self) -> Result<Verdict, Refusal> {
            let mut word = vec![0; WITNESS];
            let (mut path_a, mut path_b) = (vec![0; WITNESS], vec![0; WITNESS]);
            let (mut output_x, mut output_y) = (vec![0; WITNESS_OUTPUT], vec![0; WITNESS_OUTPUT]);
            let mut answer = [0; 8];
            done(unsafe {
                yotselina_verdict(
                    self.0.as_ptr(), TABLE,
                    word.as_mut_ptr(), word.len(),
                    path_a.as_mut_ptr(), path_a.len(),
                    path_b.as_mut_ptr(), path_b.len(),
                    output_x.as_mut_ptr(), output_x.len(),
                    output_y.as_mut_ptr(), output_y.len(),
                    answer.as_mut_ptr(), answer.len(),
                )
            })?;
            let [split, useful, words, lines_a, lines_b, codes_x, codes_y, shared] = answer;
            word.truncate(words as usize);
            path_a.truncate(lines_a as usize);
            path_b.truncate(lines_b as usize);
            output_x.truncate(codes_x as usize);
            output_y.truncate(codes_y as usize);
            let witness = Witness { word, path_a, path_b, output_x, output_y, shared };
            Ok(Verdict { useful, split: (split == 1).then_some(witness) })
        }

        /// What an accepting path that reads the input word writes.
        pub fn translate(&self, input: &[u8]) -> Result<Vec<u8>, Refusal> {
            let (mut output, mut answer) = (vec![0; OUTPUT], [0; 1]);
            done(unsafe {
                yotselina_translate(
                    self.0.as_ptr(), TABLE,
                    input.as_ptr(), input.len(),
                    output.as_mut_ptr(), output.len(),
                    answer.as_mut_ptr(), answer.len(),
                )
            })?;
            output.truncate(answer[0] as usize);
            Ok(output)
        }

        /// The useful states, as the table keeps them.
        pub fn look(&self) -> Result<Vec<usize>, Refusal> {
            let mut flags = [0; STATES];
            done(unsafe { yotselina_look(self.0.as_ptr(), TABLE, flags.as_mut_ptr(), STATES) })?;
            Ok((0..STATES).filter(|&state| flags[state] == 1).collect())
        }

        /// One line more, as the last.
        pub fn append(&mut self, line: &[u8; LINE]) -> Result<(), Refusal> {
            done(unsafe { yotselina_append(self.0.as_mut_ptr(), TABLE, line.as_ptr(), LINE) })
        }

        /// Without the line of a number.
        pub fn remove(&mut self, number: usize) -> Result<(), Refusal> {
            done(unsafe { yotselina_remove(self.0.as_mut_ptr(), TABLE, number) })
        }
    }
}

use yotselina::Table;

/// The items with a space before each.
fn spaced<T: std::fmt::Display>(items: &[T]) -> String {
    items.iter().map(|item| format!(" {item}")).collect()
}

/// The verdict in words.
fn in_words(verdict: &yotselina::Verdict) -> String {
    let useful = verdict.useful;
    match &verdict.split {
        None => format!("single: every input word has one output at most (u = {useful})\n"),
        Some(witness) => format!(
            "split: two accepting paths read one input word and write different outputs (u = {useful})\n\
             word:{}\npath A, lines:{}\n  writes:{}\npath B, lines:{}\n  writes:{}\ncodes in common at the beginning: {}\n",
            spaced(&witness.word),
            spaced(&witness.path_a),
            spaced(&witness.output_x),
            spaced(&witness.path_b),
            spaced(&witness.output_y),
            witness.shared,
        ),
    }
}

/// Prints, or says why that cannot be.
fn print(text: &[u8]) -> Result<(), String> {
    std::io::stdout().write_all(text).map_err(|error| format!("standard output: {error}"))
}

/// Makes the held table of a file, of which one byte more than the longest has is looked at, so that the library refuses a longer one.
fn load(name: &str) -> Result<Table, String> {
    let mut file = Vec::new();
    std::fs::File::open(name)
        .and_then(|opened| opened.take(yotselina::FILE as u64 + 1).read_to_end(&mut file))
        .map_err(|error| format!("{name}: {error}"))?;
    Table::read(&file).map_err(|refusal| format!("{name}: {refusal}"))
}

fn bytes_of(words: &[String]) -> Result<Vec<u8>, String> {
    words.iter().map(|word| word.parse().map_err(|_| format!("{word} is no code"))).collect()
}

/// The places of a line by its states, its input and its outputs.
fn line_of(words: &[String]) -> Result<[u8; yotselina::LINE], String> {
    match bytes_of(words)?[..] {
        [from, to, input, ref outputs @ ..] if outputs.len() <= 8 => {
            let mut line = [0; yotselina::LINE];
            line[..4].copy_from_slice(&[from, to, input, outputs.len() as u8]);
            line[4..4 + outputs.len()].copy_from_slice(outputs);
            Ok(line)
        }
        _ => Err("append takes FROM TO INPUT and up to eight outputs".to_string()),
    }
}

/// Does one job on the table.
fn job(table: &mut Table, words: &[String]) -> Result<(), String> {
    let refused = |name: &'static str| move |refusal| format!("{name}: {refusal}");
    match words[0].as_str() {
        "append" => table.append(&line_of(&words[1..])?).map_err(refused("append")),
        "remove" => match bytes_of(&words[1..])?[..] {
            [number] => table.remove(number.into()).map_err(refused("remove")),
            _ => Err("remove takes the NUMBER of a line".to_string()),
        },
        "look" => print(format!("useful states:{}\n", spaced(&table.look().map_err(refused("look"))?)).as_bytes()),
        "write" => print(&table.write().map_err(refused("write"))?),
        _ => {
            let output = table.translate(&bytes_of(words)?).map_err(refused("translate"))?;
            print(format!("output:{}\n", spaced(&output)).as_bytes())
        }
    }
}

/// Does what the head of this file says. Returns the exit status.
fn run(arguments: &[String]) -> Result<u8, String> {
    let [name, words @ ..] = arguments else {
        return Err("usage: table FILE [JOB [, JOB] ..]".to_string());
    };
    let mut table = load(name)?;
    let verdict = table.verdict().map_err(|refusal| format!("verdict: {refusal}"))?;
    print(in_words(&verdict).as_bytes())?;
    words.split(|word| word == ",").filter(|words| !words.is_empty()).try_for_each(|words| job(&mut table, words))?;
    Ok(verdict.split.is_some() as u8)
}

fn main() -> ExitCode {
    let arguments: Vec<String> = std::env::args().skip(1).collect();
    match run(&arguments) {
        Ok(status) => ExitCode::from(status),
        Err(complaint) => {
            eprintln!("{complaint}");
            ExitCode::from(2)
        }
    }
}
