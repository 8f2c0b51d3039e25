//! Writes the tree of a text of JSON as a text, by serde_json. The argument is the text's file, standard input `NAME TIMES SIZE`,
//! of which only TIMES is read. Prints the sum of the lengths.
use std::hint::black_box;
use std::{env, fs, io};

fn main() {
    let file = env::args().nth(1).expect("a file");
    let text = fs::read_to_string(file).expect("a text");
    let tree: serde_json::Value = serde_json::from_str(&text).expect("a text of JSON");
    let line = io::read_to_string(io::stdin()).expect("a line");
    let times: u64 = line.split(' ').nth(1).and_then(|it| it.parse().ok()).expect("a number");
    let mut sum = 0;
    for _ in 0..times {
        sum += black_box(black_box(&tree).to_string()).len();
    }
    println!("{sum}");
}
