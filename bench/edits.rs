//! The floor of `yotselina_append` and `yotselina_remove`, in plain Rust: the held table tested, its lines edited where they are, and the set of useful states
//! worked out again.

use crate::floor::{fits, taken, useful};
use crate::plain::{line_count, Held, COUNT_AT, LINE, LINES_AT, STATES, USEFUL_AT};

/// What is done to a table: a line appended, by its places, or the line of a number removed.
#[derive(Clone, Copy)]
pub enum Edit {
    Append([u8; LINE]),
    Remove(usize),
}

/// Edits the table, or leaves it as it is and gives the number of the refusal.
pub fn edit(held: &mut Held, edit: Edit) -> Result<(), u32> {
    if !taken(held) {
        return Err(8);
    }
    let count = line_count(held);
    let end = LINES_AT + LINE * count;
    let after = match edit {
        Edit::Append(line) if !fits(&line, held[0]) => return Err(19),
        Edit::Append(_) if count == 256 => return Err(17),
        Edit::Remove(number) if number >= count => return Err(18),
        Edit::Append(line) => {
            held[end..end + LINE].copy_from_slice(&line);
            count + 1
        }
        Edit::Remove(number) => {
            held.copy_within(LINES_AT + LINE * (number + 1)..end, LINES_AT + LINE * number);
            held[end - LINE..end].fill(0);
            count - 1
        }
    };
    held[COUNT_AT..LINES_AT].copy_from_slice(&(after as u16).to_le_bytes());
    let set = useful(held);
    (0..STATES).for_each(|state| held[USEFUL_AT + state] = (set >> state & 1) as u8);
    Ok(())
}
