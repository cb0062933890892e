//! The proved reader, through its C interface.

mod c {
    unsafe extern "C" {
        pub fn mosvitar_transcript(record: *const u8, record_len: usize, out: *mut u8, out_len: usize) -> usize;
    }
}

/// The length of the record's transcript. It is written to the front of `out` if it fits there, else `out` is left as it is.
pub fn transcript(record: &[u8], out: &mut [u8]) -> usize {
    // Safety: both pointers are good for their lengths, and the function keeps to these and holds on to neither.
    unsafe { c::mosvitar_transcript(record.as_ptr(), record.len(), out.as_mut_ptr(), out.len()) }
}
