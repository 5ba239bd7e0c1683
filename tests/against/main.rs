//! The original and Leanlantern on the same calls, with the same addresses: our arena is told the address of the original's memory.
//!
//!   against run SEED CALLS     random runs: 64 residues of the base, heaps from 16 bytes to 65,536, scribbles between calls
//!   against tilings UNITS      every tiling of heaps of up to UNITS times 8 bytes, with one more request, free, resize or extension
//!   against edges NAMED        every small opening, of up to NAMED bytes, and every alignment with the sizes at its limits
//!   against dock SEED RUNS BUILT   random runs on arenas of up to 16,777,216 bytes, with up to 524,288 holes, BUILT of them made by calls
//!   against sample SEED LINES  calls as wire frames, each followed by the original's lines, marked by '='
//!   against bench CALLS        both on the same traces, alternating; medians as ratios; then on arenas of up to 16,777,216 bytes
//!   against stack HOLES        how deep a call of ours goes into the stack, on the largest arena with some 10 holes and with HOLES
//!   against trace NAME WHO CALLS   one side alone on one trace, for counting instructions
//!
//! The original has no resize. Whether ours must be granted is told by the original's holes, and what is granted is done on the original by
//! its own grants and frees, so that every resize is compared and both sides go on with the same list.
//!
//! Before the opening, which most runs have, the heap is unopened on both sides, and they are asked there too.
//!
//! It stops at the first difference with exit status 1. That the original panics is one.

mod bench;
mod chance;
mod dock;
mod edges;
mod memory;
mod original;
mod pair;
mod report;
mod runs;
mod sample;
#[cfg(target_arch = "x86_64")]
mod stack;
mod tilings;
mod unopened;

use memory::{Memory, ARENA};

fn main() {
    report::panics_differ();
    let args: Vec<String> = std::env::args().collect();
    let number = |i: usize| args.get(i).and_then(|s| s.parse::<u64>().ok()).unwrap_or_else(|| panic!("a number is missing"));
    let counts = match args.get(1).map(|s| s.as_str()) {
        Some("run") => runs::run(number(2), number(3)),
        Some("tilings") => tilings::exhaustive(number(2) as usize),
        Some("edges") => edges::edges(number(2) as usize),
        Some("dock") => {
            let counts = dock::dock(number(2), number(3), number(4) as usize);
            counts.print();
            return counts.print_far();
        }
        Some("sample") => return sample::sample(number(2), number(3)),
        Some("bench") => {
            bench::bench(number(2) as usize);
            return bench::bench_large(number(2) as usize);
        }
        #[cfg(target_arch = "x86_64")]
        Some("stack") => return stack::stack(number(2) as usize),
        #[cfg(not(target_arch = "x86_64"))]
        Some("stack") => return println!("the stack of a call is measured on x86-64 only"),
        Some("trace") => {
            let (first, turns) = bench::trace(&args[2], number(4) as usize, 500);
            let (mut memory, mut space) = (Memory::new(ARENA), vec![0u8; ARENA]);
            let out = bench::side(&args[3], &first, &turns, &mut memory, &mut space);
            println!("{} {}", out.1.sum, out.2);
            return;
        }
        _ => panic!(
            "usage: against run SEED CALLS | tilings UNITS | edges NAMED | dock SEED RUNS BUILT | sample SEED LINES | bench CALLS \
             | stack HOLES | trace NAME WHO CALLS"
        ),
    };
    counts.print();
}
