//! Lists of instructions, a line each: name and fields, as in the first two columns of `crates/vectors/data/instructions.tsv`.
use crate::lines::{LINES, Line};
use huqmeris::{Operands, Place, sys};

/// The number behind a word.
fn after<T: std::str::FromStr>(text: &str, word: &str) -> Option<T> {
    text.split(',').find_map(|part| part.strip_prefix(word))?.parse().ok()
}

/// A register, or memory without a late offset.
fn place(text: &str) -> Option<Place> {
    if let Some(number) = text.strip_prefix("reg:") {
        return Some(Place::register(number.parse().ok()?));
    }
    if let Some(target) = text.strip_prefix("rip:") {
        return match target.split_once(':') {
            None => Some(Place { place: sys::HQ_PLACE_UNTOLD, ..Place::default() }),
            Some(("label", number)) => Some(Place::label(number.parse().ok()?)),
            Some((_, number)) => Some(Place::constant(number.parse().ok()?)),
        };
    }
    if after::<u8>(text, "late:").is_some() {
        return None;
    }
    let (base, disp, trap) = (after(text, "base:")?, after(text, "disp:")?, after(text, "trap:").unwrap_or(0));
    let place = match after(text, "index:") {
        None => Place::base(base, disp),
        Some(index) => Place::index(base, index, after(text, "scale:")?, disp),
    };
    Some(Place { trap, ..place })
}

/// The operands of a line: the first register stands in reg, the second in vvvv, and those that the line fixes nowhere.
fn operands(line: &Line, fields: &str) -> Option<Operands> {
    let mut operands = Operands { reg: None, vvvv: None, place: Place::default(), imm: None };
    for word in fields.split(' ').filter(|word| *word != "-") {
        let (name, value) = word.split_once('=')?;
        let is_place = name.starts_with('m') || name.starts_with("rm") || name.starts_with("xmm_m");
        if name.starts_with("imm") {
            operands.imm = Some(value.parse().ok()?);
        } else if is_place {
            operands.place = place(value)?;
        } else if line.reg && operands.reg.is_none() {
            operands.reg = Some(value.parse().ok()?);
        } else if line.vvvv && operands.vvvv.is_none() {
            operands.vvvv = Some(value.parse().ok()?);
        }
    }
    Some(operands)
}

/// Those whose line both sides have, and that have no late offset.
pub fn read(text: &str) -> Vec<(&'static Line, Operands)> {
    let taken = |row: &str| {
        let mut columns = row.split('\t');
        let name = columns.next()?;
        let line = LINES.iter().find(|line| line.name == name)?;
        Some((line, operands(line, columns.next()?)?))
    };
    text.lines().filter_map(taken).collect()
}
