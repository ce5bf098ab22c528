//! Safe calls of the static library: each `unsafe` block hands over the pointer and the length of one slice, or references, and
//! the calls have no other condition.
#![no_std]
#![deny(unsafe_op_in_unsafe_fn)]

pub mod sys;

pub use sys::hq_done as Done;
pub use sys::hq_flags as LineFlags;
pub use sys::hq_inst as Inst;
pub use sys::hq_item as Item;
pub use sys::hq_operand as LineOperand;
pub use sys::hq_place as Place;
pub use sys::hq_reading as Reading;
pub use sys::hq_use as Use;

/// A status that isn't `HQ_OK`.
#[derive(Clone, Copy, Debug, PartialEq, Eq)]
pub struct Status(pub i32);

impl Status {
    /// Which of the statuses it is.
    pub fn code(self) -> i32 {
        self.0 & 0xff
    }

    /// Its detail.
    pub fn detail(self) -> i32 {
        self.0 >> 8
    }

    fn of(status: i32) -> Result<(), Status> {
        if status == sys::HQ_OK { Ok(()) } else { Err(Status(status)) }
    }
}

/// An instruction's bytes, and what it tells beside them.
#[derive(Clone, Copy, Debug, PartialEq, Eq)]
pub struct Encoded {
    bytes: [u8; 13],
    len: u8,
    pub told: Use,
}

impl Encoded {
    pub fn bytes(&self) -> &[u8] {
        &self.bytes[..usize::from(self.len)]
    }
}

/// The operands of an instruction, where they stand in its bytes.
#[derive(Clone, Copy, Debug, PartialEq, Eq)]
pub struct Operands {
    pub reg: Option<u8>,
    pub vvvv: Option<u8>,
    pub place: Place,
    pub imm: Option<i64>,
}

impl Inst {
    /// The instruction of a line with these operands.
    pub fn new(line: u16, reg: Option<u8>, vvvv: Option<u8>, place: Place, imm: Option<i64>) -> Result<Inst, Status> {
        let mut out = Inst::default();
        let number = |reg: Option<u8>| reg.map_or(sys::HQ_NO_REG, u16::from);
        // SAFETY: both references are alive for the call, and `out` is ours alone.
        let status = unsafe { sys::hq_make(line, number(reg), number(vvvv), &place, imm.unwrap_or(sys::HQ_NO_IMM), &mut out) };
        Status::of(status).map(|()| out)
    }

    /// Its operands, of which `new` makes it again.
    pub fn operands(&self) -> Result<Operands, Status> {
        let (mut reg, mut vvvv, mut place, mut imm) = (sys::HQ_NO_REG, sys::HQ_NO_REG, Place::default(), sys::HQ_NO_IMM);
        // SAFETY: all references are alive for the call, and those that are written are ours alone.
        let status = unsafe { sys::hq_operands(self, &mut reg, &mut vvvv, &mut place, &mut imm) };
        let register = |number| u8::try_from(number).ok();
        let imm = (imm != sys::HQ_NO_IMM).then_some(imm);
        Status::of(status).map(|()| Operands { reg: register(reg), vvvv: register(vvvv), place, imm })
    }

    /// Its bytes.
    pub fn encode(&self) -> Result<Encoded, Status> {
        let (mut bytes, mut len, mut told) = ([0; 13], 0, Use::default());
        // SAFETY: pointer and length are those of one array; it, `len` and `told` are ours alone.
        let status = unsafe { sys::hq_encode(self, bytes.as_mut_ptr(), bytes.len(), &mut len, &mut told) };
        Status::of(status).map(|()| Encoded { bytes, len: len as u8, told })
    }

    /// The same with other registers, each by its number in the table.
    pub fn renamed(mut self, homes: &[u8; 256]) -> Result<Inst, Status> {
        // SAFETY: both references are alive for the call, and `self` is ours alone.
        Status::of(unsafe { sys::hq_rename(&mut self, homes) }).map(|()| self)
    }
}

/// How far a list was gone through, and the status that stopped it.
#[derive(Clone, Copy, Debug, PartialEq, Eq)]
pub struct Stopped {
    pub status: Status,
    pub done: Done,
}

impl Stopped {
    fn of(status: i32, done: Done) -> Result<Done, Stopped> {
        Status::of(status).map(|()| done).map_err(|status| Stopped { status, done })
    }
}

/// Encodes instructions one behind the other into the front of `code`, and what they tell into that of `uses`: all, or none.
pub fn encode_all(insts: &[Inst], code: &mut [u8], uses: &mut [Use]) -> Result<Done, Stopped> {
    let mut done = Done::default();
    // SAFETY: pointers and lengths are those of three slices; the two that are written, and `done`, are ours alone.
    let status = unsafe { sys::hq_encode_all(insts.as_ptr(), insts.len(), code.as_mut_ptr(), code.len(), uses.as_mut_ptr(), uses.len(), &mut done) };
    Stopped::of(status, done)
}

impl Item {
    /// An instruction.
    pub fn inst(inst: Inst) -> Item {
        Item { kind: sys::HQ_ITEM_INST, number: 0, inst }
    }

    /// The place of a label.
    pub fn label(number: u32) -> Item {
        Item { kind: sys::HQ_ITEM_LABEL, number, inst: Inst::default() }
    }

    /// A jump of this kind, `HQ_ITEM_JMP` and the like, to a label.
    pub fn jump(kind: u32, number: u32) -> Item {
        Item { kind, number, inst: Inst::default() }
    }

    /// The place of a constant.
    pub fn constant(number: u32) -> Item {
        Item { kind: sys::HQ_ITEM_CONSTANT, number, inst: Inst::default() }
    }

    /// These bytes, or `None` where they are more than 24.
    pub fn bytes(bytes: &[u8]) -> Option<Item> {
        let mut held = [0; size_of::<Inst>()];
        held.get_mut(..bytes.len())?.copy_from_slice(bytes);
        Some(Item { kind: sys::HQ_ITEM_BYTES, number: bytes.len() as u32, inst: Inst::holding(held) })
    }

    /// Zeros up to a multiple of `1 << power` from the first byte of the code on, where `power` is at most 6.
    pub fn align(power: u32) -> Item {
        Item { kind: sys::HQ_ITEM_ALIGN, number: power, inst: Inst::default() }
    }
}

impl Inst {
    /// The struct that these bytes are in memory, which needn't be an instruction.
    fn holding(bytes: [u8; size_of::<Inst>()]) -> Inst {
        let [l0, l1, place, reg, vvvv, base, index, scale, trap, has_offset, offset, reserved, words @ ..] = bytes;
        let [d0, d1, d2, d3, t0, t1, t2, t3, i0, i1, i2, i3] = words;
        let (line, disp) = (u16::from_le_bytes([l0, l1]), i32::from_le_bytes([d0, d1, d2, d3]));
        let (target, imm) = (u32::from_le_bytes([t0, t1, t2, t3]), u32::from_le_bytes([i0, i1, i2, i3]));
        Inst { line, place, reg, vvvv, base, index, scale, trap, has_offset, offset, reserved, disp, target, imm }
    }
}

/// Assembles items into the front of `code`, and the traps of instructions into that of `uses`: all, or nothing.
pub fn assemble(items: &[Item], code: &mut [u8], uses: &mut [Use]) -> Result<Done, Stopped> {
    let mut done = Done::default();
    // SAFETY: pointers and lengths are those of three slices; the two that are written, and `done`, are ours alone.
    let status = unsafe { sys::hq_assemble(items.as_ptr(), items.len(), code.as_mut_ptr(), code.len(), uses.as_mut_ptr(), uses.len(), &mut done) };
    Stopped::of(status, done)
}

/// A text in a slice, or the status and how many bytes it needs.
fn text_in(text: &[u8], status: i32, len: usize) -> Result<&str, (Status, usize)> {
    Status::of(status).map_err(|status| (status, len))?;
    // The texts are ASCII.
    core::str::from_utf8(&text[..len]).map_err(|_| (Status(status), len))
}

impl Inst {
    /// Its text in AT&T's form, in the front of `text`, or how many bytes it needs.
    pub fn format<'a>(&self, text: &'a mut [u8]) -> Result<&'a str, (Status, usize)> {
        let mut len = 0;
        // SAFETY: pointer and length are those of one slice; it and `len` are ours alone.
        let status = unsafe { sys::hq_format(self, text.as_mut_ptr(), text.len(), &mut len) };
        text_in(text, status, len)
    }

    /// Its mnemonic, likewise.
    pub fn mnemonic<'a>(&self, text: &'a mut [u8]) -> Result<&'a str, (Status, usize)> {
        let mut len = 0;
        // SAFETY: as above.
        let status = unsafe { sys::hq_mnemonic(self, text.as_mut_ptr(), text.len(), &mut len) };
        text_in(text, status, len)
    }
}

/// The name of the extension that a line asks for, empty where it asks for none, in the front of `text`.
pub fn extension(line: u16, text: &mut [u8]) -> Result<&str, (Status, usize)> {
    let mut len = 0;
    // SAFETY: pointer and length are those of one slice; it and `len` are ours alone.
    let status = unsafe { sys::hq_extension(line, text.as_mut_ptr(), text.len(), &mut len) };
    text_in(text, status, len)
}

/// What a line reads and writes but flags: its operands, and the registers and memory that it uses beside them. Nothing where no line
/// has the number.
pub fn line_operands(line: u16) -> impl Iterator<Item = LineOperand> {
    (0..).map_while(move |index| {
        let mut out = LineOperand::default();
        // SAFETY: `out` is ours alone.
        let status = unsafe { sys::hq_line_operand(line, index, &mut out) };
        (status == sys::HQ_OK).then_some(out)
    })
}

/// The flags that a line reads, writes and leaves undefined.
pub fn line_flags(line: u16) -> Result<LineFlags, Status> {
    let mut out = LineFlags::default();
    // SAFETY: `out` is ours alone.
    let status = unsafe { sys::hq_line_flags(line, &mut out) };
    Status::of(status).map(|()| out)
}

impl Reading {
    /// The instruction that is read as this.
    pub fn inst(&self) -> Result<Inst, Status> {
        let mut out = Inst::default();
        // SAFETY: both references are alive for the call, and `out` is ours alone.
        let status = unsafe { sys::hq_inst_of_reading(self, &mut out) };
        Status::of(status).map(|()| out)
    }
}

impl Place {
    /// A register.
    pub fn register(reg: u8) -> Place {
        Place { place: sys::HQ_PLACE_REGISTER, base: reg, ..Place::default() }
    }

    /// Memory at a base and a displacement.
    pub fn base(base: u8, disp: i32) -> Place {
        Place { place: sys::HQ_PLACE_BASE, base, disp, ..Place::default() }
    }

    /// Memory at a base, an index times `1 << scale`, and a displacement.
    pub fn index(base: u8, index: u8, scale: u8, disp: i32) -> Place {
        Place { place: sys::HQ_PLACE_INDEX, base, index, scale, disp, ..Place::default() }
    }

    /// Memory at a label.
    pub fn label(label: u32) -> Place {
        Place { place: sys::HQ_PLACE_LABEL, target: label, ..Place::default() }
    }

    /// Memory at a constant.
    pub fn constant(constant: u32) -> Place {
        Place { place: sys::HQ_PLACE_CONSTANT, target: constant, ..Place::default() }
    }
}

/// Reads the instruction at the front.
pub fn decode(bytes: &[u8]) -> Option<Reading> {
    let mut out = Reading::default();
    // SAFETY: pointer and length are those of one slice, and `out` is ours alone.
    let status = unsafe { sys::hq_decode(bytes.as_ptr(), bytes.len(), &mut out) };
    (status == sys::HQ_OK).then_some(out)
}

/// The instructions at the front, one behind the other.
#[derive(Clone, Debug)]
pub struct Readings<'a>(pub &'a [u8]);

impl Iterator for Readings<'_> {
    type Item = Reading;

    fn next(&mut self) -> Option<Reading> {
        let reading = decode(self.0)?;
        self.0 = &self.0[usize::from(reading.length)..];
        Some(reading)
    }
}

#[cfg(test)]
mod tests {
    use crate::{Done, Inst, Item, LineFlags, Operands, Place, Readings, Status, Use, assemble, encode_all, extension, line_flags, line_operands, sys};

    fn ret() -> Inst {
        Inst::new(sys::HQ_LINE_RETQ_ZO, None, None, Place::default(), None).unwrap()
    }

    #[test]
    fn encodes_a_list() {
        let lea = Inst::new(sys::HQ_LINE_LEAQ_RM, Some(0), None, Place::label(9), None).unwrap();
        let (mut code, mut uses) = ([0xCC; 10], [Use::default(); 2]);
        let done = encode_all(&[ret(), lea, ret()], &mut code, &mut uses).unwrap();
        assert_eq!((done.items, done.bytes, done.uses), (3, 9, 1));
        assert_eq!(code, [0xC3, 0x48, 0x8D, 0x05, 0, 0, 0, 0, 0xC3, 0xCC]);
        assert_eq!((uses[0].at, uses[0].kind, uses[0].number), (4, sys::HQ_TOLD_LABEL, 9));
        let bad = Inst { reserved: 1, ..lea };
        let stopped = encode_all(&[ret(), bad], &mut code, &mut uses).unwrap_err();
        assert_eq!((stopped.status, stopped.done.items, code[0]), (Status(sys::HQ_BAD_INST), 1, 0xC3));
        let stopped = encode_all(&[lea, lea], &mut code, &mut uses).unwrap_err();
        assert_eq!((stopped.status, stopped.done.bytes), (Status(sys::HQ_FULL), 14));
    }

    #[test]
    fn says_what_lines_do() {
        let accesses = line_operands(sys::HQ_LINE_LEAVEQ_ZO).map(|o| (o.home, o.number, o.access));
        assert!(accesses.eq([
            (sys::HQ_HOME_FIXED, 4, sys::HQ_ACCESS_WRITE),
            (sys::HQ_HOME_FIXED, 5, sys::HQ_ACCESS_READ_WRITE),
            (sys::HQ_HOME_STACK, 0, sys::HQ_ACCESS_READ),
        ]));
        assert_eq!(line_operands(sys::HQ_LINE_COUNT).count(), 0);
        let flags = LineFlags { read: sys::HQ_FLAG_CF, written: 0, undefined: 0 };
        assert_eq!(line_flags(sys::HQ_LINE_SETB_M), Ok(flags));
        assert_eq!(line_flags(sys::HQ_LINE_COUNT), Err(Status(sys::HQ_BAD_LINE)));
    }

    #[test]
    fn gives_operands_back() {
        let (reg, place) = (Some(255), Place::index(3, 1, 3, -5));
        let load = Inst::new(sys::HQ_LINE_MOVQ_RM, reg, None, place, None).unwrap();
        assert_eq!(load.operands(), Ok(Operands { reg, vvvv: None, place, imm: None }));
        let add = Inst::new(sys::HQ_LINE_ADDQ_MI_SXB, None, None, Place::register(7), Some(-1)).unwrap();
        assert_eq!(add.operands(), Ok(Operands { reg: None, vvvv: None, place: Place::register(7), imm: Some(-1) }));
        assert_eq!(Inst { reserved: 1, ..add }.operands(), Err(Status(sys::HQ_BAD_INST)));
    }

    #[test]
    fn assembles_a_loop() {
        let dec = Inst::new(sys::HQ_LINE_SUBQ_MI_SXB, None, None, Place::register(7), Some(1)).unwrap();
        let mut code = [0xCC; 16];
        let done = assemble(&[Item::label(0), Item::inst(dec), Item::jump(sys::HQ_ITEM_JNE, 0), Item::inst(ret())], &mut code, &mut []).unwrap();
        assert_eq!(code[..done.bytes], [0x48, 0x83, 0xEF, 0x01, 0x75, 0xFA, 0xC3]);
        let stopped = assemble(&[Item::inst(ret()), Item::jump(sys::HQ_ITEM_JMP, 0)], &mut code, &mut []).unwrap_err();
        assert_eq!((stopped.status, stopped.done.items), (Status(sys::HQ_UNBOUND), 1));
    }

    /// `movq` from memory into the first register, which may raise this trap.
    fn trapping(trap: u8) -> Item {
        let place = Place { trap, ..Place::index(3, 1, 3, 5) };
        Item::inst(Inst::new(sys::HQ_LINE_MOVQ_RM, Some(0), None, place, None).unwrap())
    }

    #[test]
    fn assembles_traps() {
        let items = [trapping(7), Item::jump(sys::HQ_ITEM_JMP, 0), trapping(255), Item::inst(ret()), Item::constant(0), Item::label(0)];
        let blank = Use { at: 77, kind: 78, number: 79 };
        let (mut code, mut uses) = ([0xCC; 17], [blank; 3]);
        let stopped = assemble(&items, &mut code, &mut uses[..1]).unwrap_err();
        assert_eq!((stopped.status, stopped.done), (Status(sys::HQ_FULL), Done { items: 6, bytes: 16, uses: 2 }));
        let stopped = assemble(&items[..5], &mut code, &mut uses).unwrap_err();
        assert_eq!((stopped.status, stopped.done.items), (Status(sys::HQ_UNBOUND), 1));
        assert_eq!((code, uses), ([0xCC; 17], [blank; 3]));
        assert_eq!(assemble(&items, &mut code, &mut uses), Ok(Done { items: 6, bytes: 16, uses: 2 }));
        assert_eq!(code, [0x48, 0x8B, 0x44, 0xCB, 5, 0xE9, 6, 0, 0, 0, 0x48, 0x8B, 0x44, 0xCB, 5, 0xC3, 0xCC]);
        let trap = |at, number| Use { at, kind: sys::HQ_TOLD_TRAP, number };
        assert_eq!(uses, [trap(0, 7), trap(10, 255), blank]);
    }

    /// `movaps` of a constant into the first register.
    fn load(constant: u32) -> Item {
        Item::inst(Inst::new(sys::HQ_LINE_MOVAPS_A, Some(0), None, Place::constant(constant), None).unwrap())
    }

    #[test]
    fn assembles_a_constant() {
        let bytes = [1, 2, 3, 4, 5, 6, 7, 0x80, 0x90, 0xA0, 0xB0, 0xC0, 0xD0, 0xE0, 0xF0, 0xFF];
        let items = [load(7), Item::inst(ret()), Item::align(4), Item::constant(7), Item::bytes(&bytes).unwrap()];
        let mut code = [0xCC; 33];
        let done = assemble(&items, &mut code, &mut []).unwrap();
        assert_eq!((done.items, done.bytes, code[32]), (5, 32, 0xCC));
        assert_eq!(code[..16], [0x0F, 0x28, 0x05, 9, 0, 0, 0, 0xC3, 0, 0, 0, 0, 0, 0, 0, 0]);
        let read = Readings(&code).next().unwrap();
        let at = usize::from(read.length) + read.disp as usize;
        assert_eq!((read.line, read.place_kind, &code[at..at + 16]), (sys::HQ_LINE_MOVAPS_A, sys::HQ_READ_RELATIVE, &bytes[..]));
        let refused = |items: &[Item]| assemble(items, &mut [0; 64], &mut []).map_err(|stopped| (stopped.status, stopped.done.items));
        assert_eq!(refused(&items[..3]), Err((Status(sys::HQ_UNBOUND), 0)));
        assert_eq!(refused(&[load(7), Item::constant(7), Item::constant(7)]), Err((Status(sys::HQ_BOUND_TWICE), 2)));
    }

    #[test]
    fn assembles_bytes() {
        let bytes: [u8; 25] = core::array::from_fn(|i| 0x7B + i as u8);
        assert_eq!(Item::bytes(&bytes), None);
        for count in 0..25 {
            let mut code = [0xCC; 33];
            let items = [load(0), Item::inst(ret()), Item::constant(0), Item::bytes(&bytes[..count]).unwrap()];
            assert_eq!(assemble(&items, &mut code, &mut []).unwrap().bytes, 8 + count);
            assert_eq!(code[..8], [0x0F, 0x28, 0x05, 1, 0, 0, 0, 0xC3]);
            assert_eq!((&code[8..8 + count], code[8 + count]), (&bytes[..count], 0xCC));
        }
    }

    #[test]
    fn assembles_padding() {
        for power in 0..7 {
            let mut code = [0xCC; 66];
            let (at, one) = (8_usize.next_multiple_of(1 << power), Item::bytes(&[1]).unwrap());
            let items = [load(0), Item::inst(ret()), Item::align(power), Item::constant(0), one];
            assert_eq!(assemble(&items, &mut code, &mut []).unwrap().bytes, at + 1);
            assert_eq!(code[..8], [0x0F, 0x28, 0x05, at as u8 - 7, 0, 0, 0, 0xC3]);
            assert!(code[8..at].iter().all(|&byte| byte == 0) && code[at..at + 2] == [1, 0xCC]);
        }
        let stopped = assemble(&[Item::inst(ret()), Item::align(7)], &mut [0; 128], &mut []).unwrap_err();
        assert_eq!((stopped.status, stopped.done.items), (Status(sys::HQ_BAD_ITEM), 1));
    }

    #[test]
    fn writes_texts() {
        let add = Inst::new(sys::HQ_LINE_ADDQ_RM, Some(0), None, Place::index(7, 1, 3, 0), None).unwrap();
        let mut text = [0; 32];
        assert_eq!(add.format(&mut text), Ok("addq (%rdi, %rcx, 8), %rax"));
        assert_eq!(add.mnemonic(&mut text), Ok("addq"));
        assert_eq!(add.format(&mut text[..3]), Err((Status(sys::HQ_FULL), 26)));
        assert_eq!(extension(sys::HQ_LINE_POPCNTQ_RM, &mut text), Ok("popcnt"));
        assert_eq!(Readings(&[0x48, 0x03, 0x04, 0xCF]).next().unwrap().inst(), Ok(add));
    }

    #[test]
    fn encodes_and_reads() {
        let inst = Inst::new(sys::HQ_LINE_ADDQ_RM, Some(0), None, Place::index(7, 1, 3, 0), None).unwrap();
        let encoded = inst.encode().unwrap();
        assert_eq!(encoded.bytes(), [0x48, 0x03, 0x04, 0xCF]);
        assert_eq!(Readings(encoded.bytes()).map(|r| (r.line, r.length)).collect_one(), Some((sys::HQ_LINE_ADDQ_RM, 4)));
    }

    #[test]
    fn tells_of_a_label() {
        let inst = Inst::new(sys::HQ_LINE_LEAQ_RM, Some(0), None, Place::label(9), None).unwrap();
        let told = inst.encode().unwrap().told;
        assert_eq!((told.at, told.kind, told.number), (3, sys::HQ_TOLD_LABEL, 9));
    }

    #[test]
    fn refuses() {
        let new = |imm| Inst::new(sys::HQ_LINE_ADDQ_MI_SXB, None, None, Place::register(1), imm);
        assert_eq!(new(Some(128)), Err(Status(sys::HQ_BAD_OPERANDS + (4 << 8))));
        assert_eq!(new(None), Err(Status(sys::HQ_BAD_OPERANDS + (3 << 8))));
        let virtual_register = Inst::new(sys::HQ_LINE_ADDQ_RM, Some(16), None, Place::register(1), None).unwrap();
        assert_eq!(virtual_register.encode(), Err(Status(sys::HQ_FAULT_REGISTER)));
        assert_eq!(Inst { reserved: 1, ..virtual_register }.encode(), Err(Status(sys::HQ_BAD_INST)));
    }

    trait One: Iterator + Sized {
        fn collect_one(mut self) -> Option<Self::Item> {
            let first = self.next()?;
            self.next().is_none().then_some(first)
        }
    }

    impl<I: Iterator> One for I {}
}
