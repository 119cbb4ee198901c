//! The library's calls (include/yotselina.h) on held tables, over buffers that are made once and used again by each call.

use crate::edits::Edit;
use crate::plain::{Held, HELD, LINE, STATES};

extern "C" {
    fn yotselina_check(file: *const u8, file_length: usize) -> u32;
    fn yotselina_read(file: *const u8, file_length: usize, table: *mut u8, table_length: usize) -> u32;
    fn yotselina_write(table: *const u8, table_length: usize, out: *mut u8, out_length: usize, answer: *mut u64, answer_length: usize) -> u32;
    fn yotselina_verdict(
        table: *const u8,
        table_length: usize,
        word: *mut u8,
        word_length: usize,
        path_a: *mut u16,
        path_a_length: usize,
        path_b: *mut u16,
        path_b_length: usize,
        output_x: *mut u8,
        output_x_length: usize,
        output_y: *mut u8,
        output_y_length: usize,
        answer: *mut u64,
        answer_length: usize,
    ) -> u32;
    fn yotselina_translate(
        table: *const u8,
        table_length: usize,
        input: *const u8,
        input_length: usize,
        output: *mut u8,
        output_length: usize,
        answer: *mut u64,
        answer_length: usize,
    ) -> u32;
    fn yotselina_accepts(
        table: *const u8,
        table_length: usize,
        input: *const u8,
        input_length: usize,
        output: *const u8,
        output_length: usize,
        answer: *mut u64,
        answer_length: usize,
    ) -> u32;
    fn yotselina_useful_states(table: *const u8, table_length: usize, flags: *mut u8, flags_length: usize) -> u32;
    fn yotselina_look(table: *const u8, table_length: usize, flags: *mut u8, flags_length: usize) -> u32;
    fn yotselina_useful_pairs(
        table: *const u8,
        table_length: usize,
        flags: *mut u8,
        flags_length: usize,
        answer: *mut u64,
        answer_length: usize,
    ) -> u32;
    fn yotselina_append(table: *mut u8, table_length: usize, line: *const u8, line_length: usize) -> u32;
    fn yotselina_remove(table: *mut u8, table_length: usize, number: usize) -> u32;
    fn yotselina_join(first: *const u8, first_length: usize, second: *const u8, second_length: usize, result: *mut u8, result_length: usize) -> u32;
    fn yotselina_difference(x: *const u8, x_length: usize, y: *const u8, y_length: usize, answer: *mut u64, answer_length: usize) -> u32;
}

pub const WITNESS: usize = 2_047;
pub const WITNESS_OUTPUT: usize = 16_376;
pub const VERDICT_ANSWER: usize = 8;
pub const OUTPUT: usize = 65_528;
pub const ACCEPTS_INPUT: usize = 63;
pub const ACCEPTS_OUTPUT: usize = 127;
pub const FILE: usize = 13_202;
pub const PAIRS: usize = 1_024;
pub const UNREAD: u32 = 11;
/// What some calls refuse of tables that are measured.
pub const OTHER_REFUSALS: [(&str, u32); 5] = [("join", 15), ("join", 16), ("join", 17), ("append", 17), ("remove", 18)];

pub fn check(file: &[u8]) -> u32 {
    unsafe { yotselina_check(file.as_ptr(), file.len()) }
}

pub fn read(file: &[u8], table: &mut Held) -> u32 {
    unsafe { yotselina_read(file.as_ptr(), file.len(), table.as_mut_ptr(), HELD) }
}

/// The held table of a file that must be taken.
pub fn hold(file: &[u8]) -> Held {
    let mut table = [0; HELD];
    assert_eq!(read(file, &mut table), 0);
    table
}

/// Edits the table where it is, or gives the refusal.
pub fn edit(table: &mut Held, edit: Edit) -> Result<(), u32> {
    let table = table.as_mut_ptr();
    done(match edit {
        Edit::Append(line) => unsafe { yotselina_append(table, HELD, line.as_ptr(), LINE) },
        Edit::Remove(number) => unsafe { yotselina_remove(table, HELD, number) },
    })
}

pub fn join(first: &Held, second: &Held, result: &mut Held) -> Result<(), u32> {
    done(unsafe { yotselina_join(first.as_ptr(), HELD, second.as_ptr(), HELD, result.as_mut_ptr(), HELD) })
}

fn done(returned: u32) -> Result<(), u32> {
    match returned {
        0 => Ok(()),
        refusal => Err(refusal),
    }
}

/// The memory that the other calls write to.
pub struct Buffers {
    word: Vec<u8>,
    paths: [Vec<u16>; 2],
    outputs: [Vec<u8>; 2],
    output: Vec<u8>,
    out: Vec<u8>,
    flags: Vec<u8>,
    answer: [u64; VERDICT_ANSWER],
    pub table: Held, // for calls that edit or make one
}

impl Buffers {
    pub fn new() -> Buffers {
        Buffers {
            word: vec![0; WITNESS],
            paths: [vec![0; WITNESS], vec![0; WITNESS]],
            outputs: [vec![0; WITNESS_OUTPUT], vec![0; WITNESS_OUTPUT]],
            output: vec![0; OUTPUT],
            out: vec![0; FILE],
            flags: vec![0; PAIRS],
            answer: [0; VERDICT_ANSWER],
            table: [0; HELD],
        }
    }

    /// What the call returned; whether the table is split; u.
    pub fn verdict(&mut self, table: &Held) -> (u32, u64, u64) {
        let ([a, b], [x, y], answer) = (&mut self.paths, &mut self.outputs, &mut self.answer);
        let returned = unsafe {
            yotselina_verdict(
                table.as_ptr(),
                HELD,
                self.word.as_mut_ptr(),
                WITNESS,
                a.as_mut_ptr(),
                WITNESS,
                b.as_mut_ptr(),
                WITNESS,
                x.as_mut_ptr(),
                WITNESS_OUTPUT,
                y.as_mut_ptr(),
                WITNESS_OUTPUT,
                answer.as_mut_ptr(),
                VERDICT_ANSWER,
            )
        };
        (returned, answer[0], answer[1])
    }

    /// The output, or the refusal.
    pub fn translate(&mut self, table: &Held, word: &[u8]) -> Result<&[u8], u32> {
        let (output, answer) = (self.output.as_mut_ptr(), self.answer.as_mut_ptr());
        done(unsafe { yotselina_translate(table.as_ptr(), HELD, word.as_ptr(), word.len(), output, OUTPUT, answer, 1) })?;
        Ok(&self.output[..self.answer[0] as usize])
    }

    /// What the call returned; 1 for yes.
    pub fn accepts(&mut self, table: &Held, input: &[u8], output: &[u8]) -> (u32, u64) {
        let answer = self.answer.as_mut_ptr();
        let returned = unsafe { yotselina_accepts(table.as_ptr(), HELD, input.as_ptr(), input.len(), output.as_ptr(), output.len(), answer, 1) };
        (returned, self.answer[0])
    }

    /// The flags, or the refusal.
    pub fn useful_states(&mut self, table: &Held) -> Result<&[u8], u32> {
        done(unsafe { yotselina_useful_states(table.as_ptr(), HELD, self.flags.as_mut_ptr(), STATES) })?;
        Ok(&self.flags[..STATES])
    }

    /// The flags, or the refusal.
    pub fn look(&mut self, table: &Held) -> Result<&[u8], u32> {
        done(unsafe { yotselina_look(table.as_ptr(), HELD, self.flags.as_mut_ptr(), STATES) })?;
        Ok(&self.flags[..STATES])
    }

    pub fn useful_pairs(&mut self, table: &Held) -> u32 {
        unsafe { yotselina_useful_pairs(table.as_ptr(), HELD, self.flags.as_mut_ptr(), PAIRS, self.answer.as_mut_ptr(), 1) }
    }

    pub fn difference(&mut self, x: &[u8], y: &[u8]) -> u32 {
        unsafe { yotselina_difference(x.as_ptr(), x.len(), y.as_ptr(), y.len(), self.answer.as_mut_ptr(), 2) }
    }

    /// The file, or the refusal.
    pub fn write(&mut self, table: &Held) -> Result<&[u8], u32> {
        done(unsafe { yotselina_write(table.as_ptr(), HELD, self.out.as_mut_ptr(), FILE, self.answer.as_mut_ptr(), 1) })?;
        Ok(&self.out[..self.answer[0] as usize])
    }
}
