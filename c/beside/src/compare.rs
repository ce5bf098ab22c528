//! Random operands of each line, as a struct of the public crate and through the archive: bytes, what is told, readings and texts.
use crate::lines::{LINES, Line, Numbers, OTHERS, Takes};
use cranelift_assembler_x64 as public;
use huqmeris::{Inst, Operands, Place, Use, decode, encode_all, sys};
use public::{CodeSink, DeferredTarget, KnownOffset, TrapCode};

/// Bytes, and what is told of them.
#[derive(Debug, Default, PartialEq)]
pub struct Recorder {
    pub bytes: Vec<u8>,
    pub told: Vec<Use>,
}

impl Recorder {
    fn tell(&mut self, kind: u32, number: u32) {
        self.told.push(Use { at: self.bytes.len() as u32, kind, number });
    }
}

impl CodeSink for Recorder {
    fn put1(&mut self, value: u8) {
        self.bytes.push(value);
    }

    fn put2(&mut self, value: u16) {
        self.bytes.extend(value.to_le_bytes());
    }

    fn put4(&mut self, value: u32) {
        self.bytes.extend(value.to_le_bytes());
    }

    fn put8(&mut self, value: u64) {
        self.bytes.extend(value.to_le_bytes());
    }

    fn add_trap(&mut self, code: TrapCode) {
        self.tell(sys::HQ_TOLD_TRAP, code.0.get().into());
    }

    fn use_target(&mut self, target: DeferredTarget) {
        match target {
            DeferredTarget::Label(label) => self.tell(sys::HQ_TOLD_LABEL, label.0),
            DeferredTarget::Constant(constant) => self.tell(sys::HQ_TOLD_CONSTANT, constant.0),
            DeferredTarget::None => self.tell(sys::HQ_TOLD_PLACE, 0),
        }
    }

    fn known_offset(&self, _: KnownOffset) -> i32 {
        unreachable!("no operand has a late offset")
    }
}

/// Marsaglia's generator of 64 bits.
pub struct Random(u64);

impl Random {
    fn next(&mut self) -> u64 {
        self.0 ^= self.0 << 13;
        self.0 ^= self.0 >> 7;
        self.0 ^= self.0 << 17;
        self.0.wrapping_mul(0x2545_F491_4F6C_DD1D) >> 16
    }

    fn below(&mut self, bound: u64) -> u64 {
        self.next() % bound
    }

    /// A number in a range: half of them stand at its limits, or at those of a byte.
    fn number(&mut self, least: i64, greatest: i64) -> i64 {
        const AROUND: [i64; 13] = [0, 1, -1, 2, 9, 10, 126, 127, 128, 129, -127, -128, -129];
        let any = least + self.below((greatest - least) as u64 + 1) as i64;
        let chosen = match self.below(8) {
            0 => least + self.below(2) as i64,
            1 => greatest - self.below(2) as i64,
            2..6 => AROUND[self.below(13) as usize],
            _ => any,
        };
        if (least..=greatest).contains(&chosen) { chosen } else { any }
    }

    fn register(&mut self) -> u8 {
        self.below(16) as u8
    }

    fn disp(&mut self) -> i32 {
        self.number(i32::MIN.into(), i32::MAX.into()) as i32
    }

    fn memory(&mut self) -> Place {
        let number = self.number(0, u32::MAX.into()) as u32;
        let trap = if self.below(3) == 0 { self.number(1, 255) as u8 } else { 0 };
        match self.below(8) {
            0 => Place::label(number),
            1 => Place::constant(number),
            2 => Place { place: sys::HQ_PLACE_UNTOLD, ..Place::default() },
            3..5 => Place { trap, ..Place::base(self.register(), self.disp()) },
            _ => {
                let index = [0, 1, 2, 3, 15, 5, 6, 7, 8, 9, 10, 11, 12, 13, 14][self.below(15) as usize];
                Place { trap, ..Place::index(self.register(), index, self.below(4) as u8, self.disp()) }
            }
        }
    }

    fn place(&mut self, takes: Takes) -> Place {
        match takes {
            Takes::Nothing => Place::default(),
            Takes::Either if self.below(3) == 0 => Place::register(self.register()),
            _ => self.memory(),
        }
    }

    fn operands(&mut self, line: &Line) -> Operands {
        Operands {
            reg: line.reg.then(|| self.register()),
            vvvv: line.vvvv.then(|| self.register()),
            place: self.place(line.place),
            imm: line.imm.map(|(least, greatest)| self.number(least, greatest)),
        }
    }
}

/// How many there were.
#[derive(Default)]
struct Counts {
    bytes: usize,
    traps: usize,
    targets: usize,
    shortened: usize,
    rewritten: usize,
}

/// Why the two differ, in full.
fn differ<T: std::fmt::Debug, U: std::fmt::Debug>(what: &str, line: &Line, operands: &Operands, there: T, here: U) -> String {
    format!("{}: {what}\noperands:     {operands:?}\npublic crate: {there:x?}\nhere:         {here:x?}", line.name)
}

/// What the public crate puts, without the byte 40 that this library leaves out: whether there was one.
pub fn shorten(line: &Line, place: &Place, put: &mut Recorder) -> bool {
    let is_needed = place.place == sys::HQ_PLACE_REGISTER && (4..8).contains(&place.base);
    let is_shortened = line.is_prefixed && put.bytes[0] == 0x40 && !is_needed;
    if is_shortened {
        put.bytes.remove(0);
        put.told.iter_mut().for_each(|told| told.at = told.at.saturating_sub(1));
    }
    is_shortened
}

/// What the public crate's text is here: a shift by one has no 1, an exchange has its memory first, and a comparison has the number
/// of its predicate behind the mnemonic.
fn text(line: &Line, operands: &Operands, there: &str) -> String {
    let (mnemonic, rest) = there.split_once(' ').unwrap_or((there, ""));
    let name = line.name.split('_').next().unwrap_or_default();
    match (line.prints, rest.split_once(", ")) {
        (Some("shift"), Some(("$1", place))) => format!("{mnemonic} {place}"),
        (Some("exchange"), Some((register, place))) => format!("{mnemonic} {place}, {register}"),
        (Some("compare"), _) if mnemonic != name => format!("{name} $0x{:x}, {rest}", operands.imm.unwrap_or_default()),
        _ => there.into(),
    }
}

/// What is read of the public crate's own bytes.
fn read(line: &Line, operands: &Operands, inst: &Inst, bytes: &[u8]) -> Result<(), String> {
    let reading = decode(bytes).ok_or_else(|| differ("its bytes aren't read", line, operands, bytes, ""))?;
    let length = (reading.line, usize::from(reading.length));
    if length != (line.number, bytes.len()) {
        return Err(differ("its bytes are read by another line, or not whole", line, operands, bytes, reading));
    }
    if reading.place_kind == sys::HQ_READ_RELATIVE {
        let (reg, vvvv) = (line.reg.then_some(reading.reg), line.vvvv.then_some(reading.vvvv));
        let imm = (reading.has_imm == 1).then_some(reading.imm);
        let behind = line.imm.map_or(0, |(least, greatest)| (greatest - least).count_ones() as i32 / 8);
        let is_same = (reg, vvvv, imm, reading.disp) == (operands.reg, operands.vvvv, operands.imm, -behind);
        let is_relative = operands.place.place >= sys::HQ_PLACE_LABEL;
        return if is_same && is_relative { Ok(()) } else { Err(differ("its bytes are read as others", line, operands, bytes, reading)) };
    }
    let bare = Inst { trap: 0, ..*inst };
    if reading.inst() == Ok(bare) { Ok(()) } else { Err(differ("its bytes are read as another instruction", line, operands, bytes, reading)) }
}

/// One instruction, on both sides. What it puts here goes behind the others.
fn compare(line: &Line, operands: &Operands, insts: &mut Vec<Inst>, all: &mut Recorder, counts: &mut Counts) -> Result<(), String> {
    let there = (line.make)(operands);
    let made = Inst::new(line.number, operands.reg, operands.vvvv, operands.place, operands.imm);
    let here = made.map_err(|status| differ("it isn't made", line, operands, "", status))?;
    let mut put = Recorder::default();
    there.encode(&mut put);
    read(line, operands, &here, &put.bytes)?;
    counts.shortened += usize::from(shorten(line, &operands.place, &mut put));
    let encoded = here.encode().map_err(|status| differ("it isn't encoded", line, operands, &put, status))?;
    let told = if encoded.told.kind == sys::HQ_TOLD_NOTHING { vec![] } else { vec![encoded.told] };
    if encoded.bytes() != put.bytes || told != put.told {
        return Err(differ("bytes, or what is told", line, operands, &put, encoded));
    }
    if here.operands() != Ok(*operands) {
        return Err(differ("operands", line, operands, "", here.operands()));
    }
    let wanted = text(line, operands, &there.to_string());
    counts.rewritten += usize::from(wanted != there.to_string());
    if here.format(&mut [0; 128]) != Ok(&wanted) {
        return Err(differ("text", line, operands, there.to_string(), here.format(&mut [0; 128])));
    }
    counts.bytes += put.bytes.len();
    counts.traps += usize::from(told.iter().any(|told| told.kind == sys::HQ_TOLD_TRAP));
    counts.targets += usize::from(told.iter().any(|told| told.kind != sys::HQ_TOLD_TRAP));
    all.told.extend(told.iter().map(|told| Use { at: told.at + all.bytes.len() as u32, ..*told }));
    all.bytes.extend(&put.bytes);
    insts.push(here);
    Ok(())
}

/// One of each line, and all of these in one call.
fn round(random: &mut Random, counts: &mut Counts) -> Result<(), String> {
    let (mut insts, mut all) = (Vec::new(), Recorder::default());
    for line in LINES {
        let operands = random.operands(line);
        compare(line, &operands, &mut insts, &mut all, counts)?;
    }
    let (mut code, mut uses) = (vec![0; all.bytes.len()], vec![Use::default(); all.told.len()]);
    let done = encode_all(&insts, &mut code, &mut uses);
    let is_same = done.is_ok_and(|done| (done.bytes, done.uses) == (code.len(), uses.len())) && (&code, &uses) == (&all.bytes, &all.told);
    if is_same { Ok(()) } else { Err(format!("hq_encode_all: {done:?}\npublic crate: {all:x?}\nhere:         {code:x?} {uses:?}")) }
}

/// The no-operations of three to nine bytes, each of which is one string of bytes there: they are read by the rows that are written so.
fn others() -> Result<(), String> {
    let nothing = Operands { reg: None, vvvv: None, place: Place::default(), imm: None };
    for line in OTHERS {
        let mut put = Recorder::default();
        (line.make)(&nothing).encode(&mut put);
        let reading = decode(&put.bytes).filter(|reading| (reading.line, usize::from(reading.length)) == (line.number, put.bytes.len()));
        let is_shorter = |inst: Inst| inst.encode().is_ok_and(|encoded| encoded.bytes().len() <= put.bytes.len());
        if !reading.is_some_and(|reading| reading.inst().is_ok_and(is_shorter)) {
            return Err(differ("it's read otherwise", line, &nothing, &put, decode(&put.bytes)));
        }
    }
    Ok(())
}

/// So many instructions of each line. What was compared, or the first difference.
pub fn run(count: u64, seed: u64) -> Result<String, String> {
    let (mut random, mut counts) = (Random(seed.wrapping_mul(2).wrapping_add(1)), Counts::default());
    others()?;
    for _ in 0..count {
        round(&mut random, &mut counts)?;
    }
    let Counts { bytes, traps, targets, shortened, rewritten } = counts;
    let (lines, others) = (LINES.len(), OTHERS.len());
    Ok(format!(
        "{lines} lines, {count} instructions of each: {bytes} bytes, {traps} traps, {targets} targets, readings and texts are alike\n\
         in {shortened} of these the public crate puts a byte 40 that isn't put here, and {rewritten} texts are written otherwise, as docs/FUZZING.md says\n\
         {others} no-operations that have no line of their own are read by the lines nopl_rm and nopw_rm"
    ))
}

/// What the public crate's struct of a line puts.
pub fn put(inst: &public::Inst<Numbers>) -> Recorder {
    let mut put = Recorder::default();
    inst.encode(&mut put);
    put
}
