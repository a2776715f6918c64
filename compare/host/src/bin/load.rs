//! What `face_load` is to print for its standard input, by the comparison's plain Rust: a program to measure it against.
use host::load::{answer, read};
use std::io::{Read, Write};

fn main() {
    let mut input = Vec::new();
    std::io::stdin().read_to_end(&mut input).expect("standard input");
    std::io::stdout().write_all(answer(&read(&input)).as_bytes()).expect("standard output");
}
