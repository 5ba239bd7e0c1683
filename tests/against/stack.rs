//! How deep a call of ours goes into the stack. Each call is made on a stack of its own, which is painted before; the lowest byte that
//! was painted over afterwards tells the depth. The depth counts the return address and the frame of the Rust package. For x86-64.

use crate::bench::{laid_ours, trace};
use crate::memory::{Memory, LARGEST};
use crate::report::same;
use leanlantern::{Block, Lantern};
use std::arch::asm;

const PAINT: u8 = 0xa5;
/// Enough for 300 bytes a hole: a depth that grew with the holes would be seen.
const ROOM: usize = 64 << 20;
/// A call must stay below.
const MOST: usize = 1024;

struct Stack {
    painted: Vec<u8>,
}

/// What is called, on the stack that is measured.
extern "C" fn on_it<F: FnMut()>(call: *mut F) {
    unsafe { (*call)() }
}

impl Stack {
    fn new() -> Stack {
        Stack { painted: vec![PAINT; ROOM] }
    }

    /// The bytes of stack that one call takes.
    fn depth<F: FnMut()>(&mut self, mut call: F) -> usize {
        let top = (self.painted.as_mut_ptr() as usize + ROOM) / 16 * 16;
        unsafe {
            asm!(
                "mov r12, rsp",
                "mov rsp, {top}",
                "call {entry}",
                "mov rsp, r12",
                top = in(reg) top,
                entry = in(reg) on_it::<F> as extern "C" fn(*mut F),
                in("rdi") &mut call as *mut F,
                out("r12") _,
                clobber_abi("C"),
            )
        };
        let lowest = self.painted.iter().position(|b| *b != PAINT).expect("a call leaves its return address");
        self.painted[lowest..].fill(PAINT);
        top - (self.painted.as_ptr() as usize + lowest)
    }
}

/// The deepest of each kind of call, with the frees and grants that undo them.
fn depths(stack: &mut Stack, ours: &mut Lantern, pins: &[u64]) -> Vec<(&'static str, usize)> {
    let mut all: Vec<(&'static str, usize)> = vec![("nothing", stack.depth(|| ()))];
    let mut deeper = |name: &'static str, depth: usize| match all.iter_mut().find(|told| told.0 == name) {
        Some(told) => told.1 = told.1.max(depth),
        None => all.push((name, depth)),
    };
    // early, at an alignment that few holes have, far along, and none
    for (size, align) in [(8, 1), (24, 4096), (60, 8), (1 << 40, 8), (8, 3)] {
        let mut answer = None;
        deeper("allocate", stack.depth(|| answer = Some(ours.allocate(size, align))));
        if let Some(Ok(told)) = answer {
            let mut freed = None;
            deeper("free", stack.depth(|| freed = Some(ours.free(told.block))));
            same("stack: free", true, freed.unwrap().is_ok());
        }
    }
    // pins have 16 bytes and a hole behind them: grown, shrunk, refused, and freed, which joins two holes
    for k in [0, pins.len() / 2, pins.len() - 1] {
        let pin = Block { addr: pins[k], size: 16, align: 8 };
        let mut answer = None;
        for (old, new, granted) in [(16, 24, true), (24, 16, true), (16, 1 << 40, false), (16, 0, true)] {
            deeper("resize", stack.depth(|| answer = Some(ours.resize(Block { size: old, ..pin }, new))));
            same("stack: resize", granted, answer.unwrap().is_ok());
        }
        let mut answer = None;
        deeper("free", stack.depth(|| answer = Some(ours.free(pin))));
        same("stack: free", true, answer.unwrap().is_ok());
        deeper("free", stack.depth(|| answer = Some(ours.free(pin))));
        same("stack: freed twice", false, answer.unwrap().is_ok());
    }
    for by in [7, 100, 1 << 40] {
        let mut answer = None;
        deeper("extend", stack.depth(|| answer = Some(ours.extend(by))));
        same("stack: extend", by < 1 << 40, answer.unwrap().is_ok());
    }
    let (mut addrs, mut sizes) = (vec![0; LARGEST / 32], vec![0; LARGEST / 32]);
    for n in [LARGEST / 32, 0] {
        let mut answer = None;
        deeper("list", stack.depth(|| answer = Some(ours.list(&mut addrs[..n], &mut sizes))));
        same("stack: list", true, answer.unwrap().is_ok());
    }
    for align in [1, 4096, 3] {
        let mut answer = None;
        deeper("room", stack.depth(|| answer = Some(ours.room(align))));
        same("stack: room", align != 3, answer.unwrap().is_ok());
    }
    all
}

pub fn stack(holes: usize) {
    let mut memory = Memory::new(LARGEST);
    let mut space = vec![0u8; LARGEST];
    let mut stack = Stack::new();
    let mut told: Vec<(usize, Vec<(&str, usize)>)> = Vec::new();
    for holes in [10, holes] {
        // some bytes are left to extend by
        let (first, _) = trace("mixed", 0, holes);
        let (mut ours, laid) = laid_ours(&first, &mut memory, &mut space, LARGEST - 4096);
        let pins: Vec<u64> = laid.into_iter().skip(1).step_by(2).collect();
        let had = ours.room(1).unwrap().holes as usize;
        told.push((had, depths(&mut stack, &mut ours, &pins)));
    }
    println!("bytes of stack for one call, the Rust package's frame and the return address among them; an arena of {LARGEST} bytes");
    println!("call      {:>12}  {:>17}", format!("{} holes", told[0].0), format!("{} holes", told[1].0));
    for ((name, few), (_, many)) in told[0].1.iter().zip(&told[1].1) {
        println!("{name:8}  {few:12}  {many:17}");
        if *many > MOST {
            crate::report::differ("stack", MOST, many)
        }
    }
}
