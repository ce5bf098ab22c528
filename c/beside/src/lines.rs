//! The lines that the public crate has as structs, and how one is made of the operands of which `hq_make` makes it here.
use cranelift_assembler_x64::{
    Amode, AmodeOffset, AmodeOffsetPlusKnownOffset, Constant, DeferredTarget, GprMem, Inst, Label, NonRspGpr, Registers, Scale, TrapCode, XmmMem, inst,
};
use huqmeris::{Operands, Place, sys};
use std::num::NonZeroU8;

/// Registers are their numbers.
pub struct Numbers;

impl Registers for Numbers {
    type ReadGpr = u8;
    type ReadWriteGpr = u8;
    type WriteGpr = u8;
    type ReadXmm = u8;
    type ReadWriteXmm = u8;
    type WriteXmm = u8;
}

/// What may stand in the rest of the tail.
#[derive(Clone, Copy, PartialEq)]
pub enum Takes {
    Nothing,
    Memory,
    Either,
}

pub struct Line {
    pub name: &'static str,
    pub number: u16,
    pub reg: bool,
    pub vvvv: bool,
    pub place: Takes,
    /// The least immediate and the greatest.
    pub imm: Option<(i64, i64)>,
    /// Whether the public crate puts a prefix 40 that nothing asks for.
    pub is_prefixed: bool,
    /// The word of the table by which the public crate prints it otherwise.
    pub prints: Option<&'static str>,
    pub make: fn(&Operands) -> Inst<Numbers>,
}

include!(concat!(env!("OUT_DIR"), "/table.rs"));

fn register(number: Option<u8>) -> u8 {
    number.expect("a register is given")
}

fn imm(operands: &Operands) -> i64 {
    operands.imm.expect("an immediate is given")
}

fn memory(place: &Place) -> Amode<u8> {
    let &Place { base, index, scale, disp, target, trap, .. } = place;
    let (simm32, trap) = (AmodeOffset::new(disp), NonZeroU8::new(trap).map(TrapCode));
    let target = match place.place {
        sys::HQ_PLACE_BASE => return Amode::ImmReg { base, simm32: AmodeOffsetPlusKnownOffset { simm32, offset: None }, trap },
        sys::HQ_PLACE_INDEX => return Amode::ImmRegRegShift { base, index: NonRspGpr::new(index), scale: Scale::new(scale), simm32, trap },
        sys::HQ_PLACE_LABEL => DeferredTarget::Label(Label(target)),
        sys::HQ_PLACE_CONSTANT => DeferredTarget::Constant(Constant(target)),
        _ => DeferredTarget::None,
    };
    Amode::RipRelative { target }
}

fn gpr_mem(operands: &Operands) -> GprMem<u8, u8> {
    let place = &operands.place;
    if place.place == sys::HQ_PLACE_REGISTER { GprMem::Gpr(place.base) } else { GprMem::Mem(memory(place)) }
}

fn xmm_mem(operands: &Operands) -> XmmMem<u8, u8> {
    let place = &operands.place;
    if place.place == sys::HQ_PLACE_REGISTER { XmmMem::Xmm(place.base) } else { XmmMem::Mem(memory(place)) }
}
