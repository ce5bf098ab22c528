//! Times of the public crate and of the archive in one process, by turns.
use crate::compare::{put, shorten};
use crate::lines::{Line, Numbers};
use cranelift_assembler_x64 as public;
use huqmeris::{Done, Inst, Operands, Reading, Use, sys};
use std::hint::black_box;
use std::time::Instant;

const COUNT: usize = 20_000;
const ROUNDS: usize = 41;
const TURNS: usize = 5;

type Entry = (&'static Line, Operands);

/// The same instructions on both sides, their bytes, and the places that are written.
struct Both {
    there: Vec<public::Inst<Numbers>>,
    here: Vec<Inst>,
    code: Vec<u8>,
    len: usize,
    put: Vec<u8>,
    lens: Vec<u32>,
    uses: Vec<Use>,
    readings: Vec<Reading>,
}

impl Both {
    fn of(entries: &[Entry]) -> Result<Both, String> {
        let new = |(line, o): &Entry| {
            let made = Inst::new(line.number, o.reg, o.vvvv, o.place, o.imm);
            made.map_err(|status| format!("{} isn't made of {o:?}: {status:?}", line.name))
        };
        let mut both = Both {
            there: entries.iter().map(|(line, operands)| (line.make)(operands)).collect(),
            here: entries.iter().map(new).collect::<Result<_, _>>()?,
            code: vec![0; 16 * COUNT],
            len: 0,
            put: Vec::with_capacity(16 * COUNT),
            lens: vec![0; COUNT],
            uses: vec![Use::default(); COUNT],
            readings: vec![Reading::default(); COUNT],
        };
        both.encode();
        let mut at = 0;
        for ((line, operands), (there, &len)) in entries.iter().zip(both.there.iter().zip(&both.lens)) {
            let mut wanted = put(there);
            shorten(line, &operands.place, &mut wanted);
            if wanted.bytes != both.code[at..at + len as usize] {
                return Err(format!("{} of {operands:?} has other bytes", line.name));
            }
            at += len as usize;
        }
        Ok(both)
    }

    fn public(&mut self) {
        self.put.clear();
        for inst in &self.there {
            inst.encode(&mut self.put);
        }
    }

    fn encode(&mut self) {
        let mut at = 0;
        for ((inst, len), told) in self.here.iter().zip(&mut self.lens).zip(&mut self.uses) {
            let code = &mut self.code[at..];
            // SAFETY: pointer and length are those of one slice; it, `len` and `told` are ours alone.
            assert_eq!(unsafe { sys::hq_encode(inst, code.as_mut_ptr(), code.len(), len, told) }, sys::HQ_OK);
            at += *len as usize;
        }
        self.len = at;
    }

    fn encode_all(&mut self) {
        let done = huqmeris::encode_all(&self.here, &mut self.code, &mut self.uses);
        assert!(done.is_ok_and(|done: Done| done.bytes == self.len));
    }

    fn decode(&mut self) {
        let mut code = &self.code[..self.len];
        for reading in &mut self.readings {
            // SAFETY: pointer and length are those of one slice, and `reading` is ours alone.
            assert_eq!(unsafe { sys::hq_decode(code.as_ptr(), code.len(), reading) }, sys::HQ_OK);
            code = &code[usize::from(reading.length)..];
        }
    }

    fn decode_all(&mut self) {
        let (mut count, mut end) = (0, 0);
        // SAFETY: pointers and lengths are those of two slices; the one that is written, `count` and `end` are ours alone.
        let status = unsafe { sys::hq_decode_all(self.code.as_ptr(), self.len, self.readings.as_mut_ptr(), COUNT, &mut count, &mut end) };
        assert_eq!((status, count, end), (sys::HQ_OK, COUNT, self.len));
    }

    #[cfg(read_inst)]
    fn read_inst(&mut self) {
        let mut code = &self.code[..self.len];
        for _ in 0..COUNT {
            let length = crate::reader::read(code);
            assert_ne!(length, 0);
            code = &code[length..];
        }
        assert!(code.is_empty());
    }
}

type Job = (&'static str, fn(&mut Both));

const JOBS: &[Job] = &[
    ("public crate, encode", Both::public),
    ("hq_encode", Both::encode),
    ("hq_encode_all", Both::encode_all),
    ("hq_decode", Both::decode),
    ("hq_decode_all", Both::decode_all),
    #[cfg(read_inst)]
    ("read_inst", Both::read_inst),
];

/// The least and the median of a job's rounds, in nanoseconds of one instruction.
fn times(both: &mut Both) -> Vec<[f64; 2]> {
    let mut rounds = vec![[0.0; ROUNDS]; JOBS.len()];
    for round in 0..ROUNDS {
        for ((_, job), times) in JOBS.iter().zip(&mut rounds) {
            let from = Instant::now();
            for _ in 0..TURNS {
                job(black_box(both));
            }
            times[round] = from.elapsed().as_nanos() as f64 / (COUNT * TURNS) as f64;
        }
    }
    rounds.iter_mut().for_each(|times| times.sort_by(f64::total_cmp));
    rounds.iter().map(|times| [times[0], times[ROUNDS / 2]]).collect()
}

/// A list in an order that one seed mixes.
fn mix(entries: &mut [Entry]) {
    let mut state = 1u64;
    for i in (1..entries.len()).rev() {
        state = state.wrapping_mul(6_364_136_223_846_793_005).wrapping_add(1_442_695_040_888_963_407);
        entries.swap(i, (state >> 33) as usize % (i + 1));
    }
}

/// The table of times.
pub fn run(list: Vec<Entry>) -> Result<String, String> {
    if list.is_empty() {
        return Err("no instruction of the list is one of both sides".into());
    }
    let mut entries: Vec<Entry> = list.iter().copied().cycle().take(COUNT).collect();
    mix(&mut entries);
    let random = times(&mut Both::of(&entries)?);
    entries.sort_by_key(|(line, _)| line.number);
    let grouped = times(&mut Both::of(&entries)?);
    let head = format!("{} of the list, {COUNT} in turn: ns of one, least and median of {ROUNDS} rounds, and of the public crate's", list.len().min(COUNT));
    let mut text = format!("{head}\n{:22}{:^28}{:^28}", "", "random order", "grouped by line");
    for (number, (name, _)) in JOBS.iter().enumerate() {
        text += &format!("\n{name:22}");
        for order in [&random, &grouped] {
            for (took, public) in order[number].iter().zip(&order[0]) {
                text += &format!("{took:7.1}{:7.2}", took / public);
            }
        }
    }
    Ok(text)
}
