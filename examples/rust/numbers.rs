//! Safe Rust around the static library `crates/example_c`: numbers in DER (X.690 8.3).

// `examples/c/example.h` says what a caller owes. Nothing compares these declarations with the library's own.
unsafe extern "C" {
    fn example_c_read_number(octets: *const u8, length: usize, number: *mut u64) -> bool;
    fn example_c_write_number(number: u64, octets: *mut u8, length: usize) -> usize;
}

/// The number of the INTEGER that the octets begin with; none where they begin with no INTEGER, or its number is
/// negative or above 2^64 - 1.
pub fn read_number(octets: &[u8]) -> Option<u64> {
    let mut number = 0;
    // SAFETY: the pointer and the length are those of one slice, which is borrowed for the call, and `number` is a
    // local.
    let is_read = unsafe { example_c_read_number(octets.as_ptr(), octets.len(), &mut number) };
    is_read.then_some(number)
}

/// Writes the number as an INTEGER to the front of the octets, and answers how many it takes; none where there is no
/// room for them, or memory is refused.
pub fn write_number(number: u64, octets: &mut [u8]) -> Option<usize> {
    // SAFETY: the pointer and the length are those of one slice, which is borrowed alone for the call.
    let count = unsafe { example_c_write_number(number, octets.as_mut_ptr(), octets.len()) };
    (count > 0).then_some(count)
}
