//! A table of how the check's cost grows with the list: by byte where it has one entry, by entry where each has 8 bytes.
use crate::{grouped, lists, times_check};

/// One line per length, from 1 KiB to 16 MiB, each four times the one before.
pub fn table() {
    println!("the check's cost by length    one entry, ns per byte           entries of 8 bytes, ns per entry");
    println!("                              library  plain Rust  ratio       library  plain Rust  ratio");
    for length in (10..=24).step_by(2).map(|bits| 1 << bits) {
        let (library, plain) = times_check("the check's cost, one entry", &lists::one_entry(length));
        let bytes = length as f64;
        print!("{:>20} bytes  {:>9.4}  {:>10.4}  {:>5.2}", grouped(length), library / bytes, plain / bytes, library / plain);
        let (library, plain) = times_check("the check's cost, entries of 8 bytes", &lists::of_8_bytes(length, 1));
        let entries = ((length - 24) / 8) as f64;
        println!("     {:>9.3}  {:>10.3}  {:>5.2}", library / entries, plain / entries, library / plain);
    }
}
