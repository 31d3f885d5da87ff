//! The proved run, from the static library of the crate `script`.

unsafe extern "C" {
    #[link_name = "net_run"]
    fn linked_run(script: *const u8, script_len: usize, out: *mut u8, out_len: usize) -> u64;
}

/// Runs a script from an empty network. Returns the answer number times 2^32 plus the bytes
/// written to `out`.
pub fn net_run(script: &[u8], out: &mut [u8]) -> u64 {
    // SAFETY: a slice of the library is a pointer and a length, in this order. It is lent for the
    // call alone, and the library is proved to stay within it.
    unsafe { linked_run(script.as_ptr(), script.len(), out.as_mut_ptr(), out.len()) }
}
