//! Makes a random session for the session program: `random SEED LINES`.

mod damage;
mod desk;
mod dice;
mod line;
mod mood;
mod writer;

use std::io::{self, BufWriter, Write};
use writer::Writer;

fn main() -> io::Result<()> {
    let arguments: Vec<u64> = std::env::args()
        .skip(1)
        .map_while(|word| word.parse().ok())
        .collect();
    let [seed, lines] = arguments[..] else {
        eprintln!("usage: random SEED LINES");
        std::process::exit(2);
    };
    let mut output = BufWriter::with_capacity(1 << 16, io::stdout().lock());
    let mut writer = Writer::new(seed, lines);
    for number in 0..lines {
        let line = writer.next_line(number);
        output.write_all(&line)?;
        let last = number + 1 == lines;
        // An empty last line needs its newline to be a line at all.
        if !last || writer.plan.final_newline || line.is_empty() {
            output.write_all(b"\n")?;
        }
    }
    output.flush()
}
