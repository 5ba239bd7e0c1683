//! Two boxes at one auction: the same calls, other sealed prices in their blocks, other noise in their free memory. What they answer is
//! the same, so a price cannot move a crate. tests/sealed.sh builds and runs it.

use leanlantern::{Block, Lantern, Refusal};
use std::fmt::Debug;

const BASE: u64 = 0x1000;

/// Writes over every byte that is in no head and no held block.
fn scribble(lantern: &mut Lantern, held: &[Block], noise: u8) {
    let (mut addrs, mut sizes) = ([0; 64], [0; 64]);
    let holes = lantern.list(&mut addrs, &mut sizes).unwrap().holes as usize;
    for (i, byte) in lantern.arena_mut().iter_mut().enumerate() {
        let at = BASE + i as u64;
        let head = addrs[..holes].iter().any(|a| *a <= at && at < a + 16);
        let block = held.iter().any(|b| b.addr <= at && at < b.addr + b.size);
        if !head && !block {
            *byte = noise ^ i as u8;
        }
    }
}

/// An answer as it is printed and compared, its numbers in hexadecimal.
fn told<T: Debug>(answer: Result<T, Refusal>) -> String {
    match answer {
        Ok(answer) => format!("{answer:x?}"),
        Err(refusal) => format!("{refusal:x?}"),
    }
}

/// Three crates come, one goes, a larger one comes, the heap grows: what the box answers.
fn auction(price: u8, noise: u8) -> Vec<String> {
    let mut arena = [noise; 512];
    let mut lantern = Lantern::new(&mut arena);
    let mut answers = vec![told(lantern.open(BASE, 200))];
    let mut held: Vec<Block> = Vec::new();
    let seal = |lantern: &mut Lantern, held: &mut Vec<Block>, answers: &mut Vec<String>, size: u64, align: u64| {
        let answer = lantern.allocate(size, align);
        if let Ok(granted) = answer {
            lantern.bytes_mut(&granted.block).unwrap().fill(price);
            held.push(granted.block);
        }
        answers.push(told(answer));
        scribble(lantern, held, noise);
    };
    seal(&mut lantern, &mut held, &mut answers, 24, 8);
    seal(&mut lantern, &mut held, &mut answers, 40, 16);
    seal(&mut lantern, &mut held, &mut answers, 32, 8);
    answers.push(told(lantern.free(held.remove(1))));
    scribble(&mut lantern, &held, noise);
    seal(&mut lantern, &mut held, &mut answers, 120, 8);
    answers.push(told(lantern.extend(100)));
    seal(&mut lantern, &mut held, &mut answers, 120, 8);
    answers.push(told(lantern.room(16)));
    for block in &held {
        assert!(lantern.bytes(block).unwrap().iter().all(|b| *b == price), "a sealed price was written over");
    }
    answers
}

fn main() {
    let (one, other) = (auction(0x11, 0xaa), auction(0xee, 0x55));
    for (a, b) in one.iter().zip(&other) {
        println!("{a:<76} {}", if a == b { "the same" } else { "ANOTHER" });
    }
    if one != other {
        std::process::exit(1);
    }
    println!("{} answers, the same in both boxes; every sealed price stands", one.len());
}
