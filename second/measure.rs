// Runs a program on a file as its standard input, its output thrown away, a number of times:
//   measure TIMES INPUT PROGRAM
// and prints the shortest time in milliseconds and the peak memory in KiB.
use std::fs::File;
use std::process::{exit, Command, Stdio};
use std::time::Instant;

#[repr(C)]
struct Usage {
    times: [i64; 4],
    peak: i64,
    rest: [i64; 13],
}

extern "C" {
    fn getrusage(who: i32, usage: *mut Usage) -> i32;
}

const CHILDREN: i32 = -1;

fn run_once(input: &str, program: &str) -> Option<f64> {
    let file = File::open(input).ok()?;
    let began = Instant::now();
    let status = Command::new(program)
        .stdin(Stdio::from(file))
        .stdout(Stdio::null())
        .status()
        .ok()?;
    let milliseconds = began.elapsed().as_secs_f64() * 1000.0;
    status.success().then_some(milliseconds)
}

fn peak_of_children() -> i64 {
    let mut usage = Usage { times: [0; 4], peak: 0, rest: [0; 13] };
    // The struct has the layout of the system's, and is as long.
    unsafe { getrusage(CHILDREN, &mut usage) };
    usage.peak
}

fn main() {
    let words: Vec<String> = std::env::args().collect();
    let [_, times, input, program] = words.as_slice() else {
        eprintln!("usage: measure TIMES INPUT PROGRAM");
        exit(2);
    };
    let times: u32 = times.parse().unwrap_or(1);
    let mut best = f64::INFINITY;
    for _ in 0..times {
        match run_once(input, program) {
            Some(milliseconds) => best = best.min(milliseconds),
            None => {
                eprintln!("measure: {program} could not be run, or failed");
                exit(1);
            }
        }
    }
    println!("{best:.1} {}", peak_of_children());
}
