//! The second archive, which `read_inst.py` makes: the reader of the port's rows.

unsafe extern "C" {
    fn read_inst_length(bytes: *const u8, len: usize) -> u32;
}

/// Reads the instruction at the front into memory of the archive's own, and answers its length, 0 where there is none.
pub fn read(bytes: &[u8]) -> usize {
    // SAFETY: pointer and length are those of one slice, and the call has no other condition.
    unsafe { read_inst_length(bytes.as_ptr(), bytes.len()) as usize }
}
