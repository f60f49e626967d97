//! What `kube_program` does, in plain Rust: hash maps, heaps, and no proof. It is what the program's times are measured
//! beside, and writes the same bytes for each script that is right. One that isn't ends with status 3 and no line.

mod objects;
mod play;
mod queue;
mod read;
mod sources;
mod store;
mod text;

use std::io::{self, BufWriter, Read, Write};
use std::process::exit;

fn main() {
    let words: Vec<String> = std::env::args().skip(1).collect();
    let words: Vec<&str> = words.iter().map(String::as_str).collect();
    let mut out = BufWriter::new(io::stdout().lock());
    let status = match words[..] {
        ["run"] => {
            let mut bytes = Vec::new();
            io::stdin().lock().read_to_end(&mut bytes).expect("standard input");
            let value = match serde_json::from_slice(&bytes) {
                Ok(value) => value,
                Err(_) => exit(3),
            };
            drop(bytes);
            match read::script(value) {
                Some(script) => play::run(script, &mut out),
                None => exit(3),
            }
        }
        ["gen", seed, objects, turns] => {
            let number = |word: &str| word.parse::<u64>().unwrap_or_else(|_| exit(2));
            play::generate(number(seed), number(objects), number(turns), &mut out)
        }
        _ => exit(2),
    };
    out.flush().expect("standard output");
    exit(status);
}
