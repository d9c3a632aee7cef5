//! Calls the static library `crates/example_c`, as `examples/c/main.c` does: each argument is a number, and is answered
//! by its octets in DER, or `x` and hexadecimal digits, and is answered by the number that these octets begin with, or
//! by `none`.

mod numbers;

use numbers::{read_number, write_number};

// An INTEGER below 2^64 has at most so many octets: a tag, a length, and nine of the number.
const MOST_OCTETS: usize = 11;

// The number as the library writes it, which has to be the number that it reads again.
fn of_number(number: u64) -> Option<String> {
    let mut octets = [0; MOST_OCTETS];
    let count = write_number(number, &mut octets)?;
    let written = &octets[..count];
    if read_number(written) != Some(number) {
        return None;
    }
    Some(written.iter().map(|octet| format!("{octet:02x}")).collect())
}

// The number that octets begin with.
fn of_octets(digits: &str) -> Option<u64> {
    let octets: Option<Vec<u8>> = (0..digits.len())
        .step_by(2)
        .map(|at| u8::from_str_radix(digits.get(at..at + 2)?, 16).ok())
        .collect();
    read_number(&octets?)
}

fn main() {
    for argument in std::env::args().skip(1) {
        match argument.strip_prefix('x') {
            Some(digits) => match of_octets(digits) {
                Some(number) => println!("{number}"),
                None => println!("none"),
            },
            None => match argument.parse().ok().and_then(of_number) {
                Some(digits) => println!("{digits}"),
                None => println!("lost"),
            },
        }
    }
}
