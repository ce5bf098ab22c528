//! Assembles the function that adds up an array, and prints its bytes and its text.
use huqmeris::{Inst, Item, Place, Readings, Status, assemble, sys};

const RAX: u8 = 0;
const RCX: u8 = 1;
const RSI: u8 = 6;
const RDI: u8 = 7;
const AGAIN: u32 = 0;
const TEST: u32 = 1;

fn put(line: u16, reg: Option<u8>, place: Place, imm: Option<i64>) -> Result<Item, Status> {
    Inst::new(line, reg, None, place, imm).map(Item::inst)
}

fn main() -> Result<(), Status> {
    let items = [
        put(sys::HQ_LINE_XORL_RM, Some(RAX), Place::register(RAX), None)?,
        put(sys::HQ_LINE_XORL_RM, Some(RCX), Place::register(RCX), None)?,
        Item::jump(sys::HQ_ITEM_JMP, TEST),
        Item::label(AGAIN),
        put(sys::HQ_LINE_ADDQ_RM, Some(RAX), Place::index(RDI, RCX, 3, 0), None)?,
        put(sys::HQ_LINE_ADDQ_MI_SXB, None, Place::register(RCX), Some(1))?,
        Item::label(TEST),
        put(sys::HQ_LINE_CMPQ_RM, Some(RCX), Place::register(RSI), None)?,
        Item::jump(sys::HQ_ITEM_JB, AGAIN),
        put(sys::HQ_LINE_RETQ_ZO, None, Place::default(), None)?,
    ];
    let mut code = [0; 64];
    let done = assemble(&items, &mut code, &mut []).map_err(|stopped| stopped.status)?;
    let mut at = 0;
    for reading in Readings(&code[..done.bytes]) {
        let mut text = [0; 64];
        let inst = reading.inst()?;
        let bytes: String = code[at..at + usize::from(reading.length)].iter().map(|byte| format!(" {byte:02x}")).collect();
        println!("{at:2}:{bytes:16}{}", inst.format(&mut text).map_err(|(status, _)| status)?);
        at += usize::from(reading.length);
    }
    Ok(())
}
