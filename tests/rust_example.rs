//! The paper's example of lines on the wire, through the Rust package: each answer is printed as the line that the paper gives, and
//! held to it. Then the room report at several alignments, and resizes. Built and run by rust_example.sh. Exit status 1 where an
//! answer differs.

use leanlantern::{Block, Lantern, Refusal};

const ARENA: usize = 65_536;

const WANTED: [&str; 9] = [
    "0000000000000010000000000000000040",
    "0000000000000010000000000000000001",
    "0000000000000010200000000000000001",
    "0700000000000000000000000000000002",
    "0000000000000000100000000000000010",
    "0000000000000000400000000000000007",
    "0000000000000000020000000000000030",
    "2000000000000010000000000000000020",
    "2000000000000010300000000000000010",
];

fn line(byte: u64, one: u64, two: u64) -> String {
    format!("{byte:02x}{one:016x}{two:016x}")
}

/// A call's two values, or its refusal.
type Told = Result<(u64, u64), Refusal>;

fn told(answer: Told) -> String {
    match answer {
        Ok((one, two)) => line(0, one, two),
        Err(Refusal::NoRoom { holes }) => line(7, 0, holes),
        Err(refusal) => line(refusal.number(), 0, 0),
    }
}

fn block(addr: u64, size: u64, align: u64) -> Block {
    Block { addr, size, align }
}

// The answers as two values. A block's size and alignment, which are those that it was asked with, are held to that.

fn open(heap: &mut Lantern, base: u64, named: u64) -> Told {
    heap.open(base, named).map(|a| (a.bottom, a.size))
}

fn allocate(heap: &mut Lantern, size: u64, align: u64) -> Told {
    let answer = heap.allocate(size, align);
    answer.map(|a| {
        assert_eq!((a.block.size, a.block.align), (size, align));
        (a.block.addr, a.looked_at)
    })
}

fn free(heap: &mut Lantern, addr: u64, size: u64, align: u64) -> Told {
    heap.free(block(addr, size, align)).map(|a| (a.rounded, a.used))
}

fn resize(heap: &mut Lantern, addr: u64, old: u64, align: u64, new: u64) -> Told {
    let answer = heap.resize(block(addr, old, align), new);
    answer.map(|a| {
        assert_eq!(a.block, block(addr, new, align));
        (a.rounded, a.used)
    })
}

fn room(heap: &Lantern, align: u64) -> Told {
    heap.room(align).map(|a| (a.largest, a.holes))
}

/// The heap goes on with other words.
fn set_words(heap: &mut Lantern, words: [u64; 7]) {
    let arena = std::mem::replace(heap, Lantern::new(&mut [])).into_arena();
    *heap = Lantern::from_words(words, arena);
}

/// Whether what was told is what is due.
fn all_due(what: &str, answers: &[(Told, Told)]) -> bool {
    for (i, (told, due)) in answers.iter().enumerate() {
        if told != due {
            eprintln!("rust_example: {what} {}: {told:?}, not {due:?}", i + 1);
            return false;
        }
    }
    true
}

/// The room report at alignments: what was told and what is due.
fn rooms(heap: &mut Lantern) -> bool {
    let words = heap.words();
    // holes of 32 at 0x1000 and of 16 at 0x1030; then numbers that are no alignment: on a heap that is not sound 5 comes first
    let mut told = vec![
        (room(heap, 1), Ok((32, 2))),
        (room(heap, 0x20), Ok((32, 2))),
        (room(heap, 0x2000), Ok((0, 2))),
        (room(heap, 0), Err(Refusal::BadLayout)),
        (room(heap, 3), Err(Refusal::BadLayout)),
        (room(heap, 1 << 63), Err(Refusal::BadLayout)),
    ];
    let mut used_more = words;
    used_more[6] += 8;
    set_words(heap, used_more);
    told.extend([(room(heap, 3), Err(Refusal::NotSound)), (room(heap, 8), Err(Refusal::NotSound))]);
    set_words(heap, words);
    // a hole of 48 at 0x1010, of which 32 lie behind a multiple of 32; then no hole
    told.extend([(free(heap, 0x1020, 0x10, 0x20), Ok((0x10, 0))), (allocate(heap, 1, 1), Ok((0x1000, 1)))]);
    told.extend([(room(heap, 1), Ok((48, 1))), (room(heap, 0x20), Ok((32, 1)))]);
    told.extend([(allocate(heap, 48, 0x20), Err(Refusal::NoRoom { holes: 1 })), (allocate(heap, 48, 1), Ok((0x1010, 1)))]);
    told.push((room(heap, 1), Ok((0, 0))));
    all_due("room report", &told)
}

/// Resizes of blocks of 16 at 0x1000 and of 48 at 0x1010, with no hole: what was told and what is due. Refused, a resize changes neither
/// words nor arena.
fn resizes(heap: &mut Lantern) -> bool {
    heap.bytes_mut(&block(0x1010, 48, 1)).unwrap().fill(0xa5);
    let (mut told, mut stays) = (Vec::new(), true);
    for (addr, old, align, new, due) in [
        // sizes that round alike, and 8 more or less where there is no hole
        (0x1000, 1, 1, 0, Ok((16, 64))),
        (0x1000, 0, 1, 24, Err(Refusal::BadStretch)),
        (0x1010, 48, 1, 40, Err(Refusal::BadStretch)),
        // 24 less is a hole of 24 at 0x1028: part of it, all but 8, more than it, and all of it
        (0x1010, 48, 1, 24, Ok((24, 40))),
        (0x1010, 24, 1, 32, Ok((32, 48))),
        (0x1010, 32, 1, 40, Err(Refusal::BadStretch)),
        (0x1010, 32, 1, 49, Err(Refusal::BadStretch)),
        (0x1010, 32, 1, 48, Ok((48, 64))),
        // no block that could be held, though 10 would hold too; no alignment, too large a size, old or new; the largest that is not
        (0x1008, 16, 1, 24, Err(Refusal::BadSpan)),
        (0x1010, 48, 3, 48, Err(Refusal::BadLayout)),
        (0x1010, u64::MAX, 1, 48, Err(Refusal::BadLayout)),
        (0x1010, 48, 1, u64::MAX, Err(Refusal::BadLayout)),
        (0x1010, 48, 8, (1 << 63) - 8, Err(Refusal::BadStretch)),
    ] {
        let (words, arena) = (heap.words(), heap.arena().to_vec());
        told.push((resize(heap, addr, old, align, new), due));
        stays &= due.is_ok() || heap.words() == words && heap.arena() == arena;
    }
    // the first 24 bytes were common to all the sizes
    stays &= heap.arena()[0x10..0x28].iter().all(|b| *b == 0xa5);
    told.push((room(heap, 1), Ok((0, 0))));
    // tested before: not opened, another length, not sound
    let words = heap.words();
    set_words(heap, [0; 7]);
    told.push((resize(heap, 0x1010, 48, 3, 48), Err(Refusal::Unopened)));
    let mut shorter = Lantern::from_words(words, &mut heap.arena_mut()[1..]);
    told.push((resize(&mut shorter, 0x1010, 48, 3, 48), Err(Refusal::OtherLength)));
    let mut used_less = words;
    used_less[6] -= 8;
    set_words(heap, used_less);
    told.extend([3, 1].map(|align| (resize(heap, 0x1010, 48, align, 48), Err(Refusal::NotSound))));
    set_words(heap, words);
    if !stays {
        eprintln!("rust_example: a resize changed what stays");
    }
    all_due("resize", &told) && stays
}

fn main() {
    let mut arena = vec![0u8; ARENA];
    let heap = &mut Lantern::new(&mut arena);
    let mut lines = vec![
        told(open(heap, 0x1000, 0x40)),
        told(allocate(heap, 1, 1)),
        told(allocate(heap, 0x10, 0x20)),
        told(allocate(heap, 0x18, 8)),
        told(free(heap, 0x1000, 1, 1)),
        told(heap.extend(7).map(|a| (a.size, a.pending))),
    ];
    let (mut addrs, mut sizes) = ([0; 4], [0; 4]);
    let listed = heap.list(&mut addrs, &mut sizes).map(|a| (a.holes, a.free));
    lines.push(told(listed));
    let holes = listed.map_or(0, |(holes, _)| holes as usize);
    lines.extend(addrs.iter().zip(&sizes).take(holes).map(|(a, s)| line(0x20, *a, *s)));
    for line in &lines {
        println!("{line}");
    }
    if lines != WANTED {
        eprintln!("rust_example: wanted\n{}", WANTED.join("\n"));
        std::process::exit(1)
    }
    if !rooms(heap) || !resizes(heap) {
        std::process::exit(1)
    }
}
