//! The calls through the package: the paper's example and its cases weighed by hand, every refusal, any words, and the
//! bytes of blocks.

use leanlantern::{Allocated, Block, Extended, Freed, Lantern, Listed, Opened, Refusal, Resized, Room};

fn block(addr: u64, size: u64, align: u64) -> Block {
    Block { addr, size, align }
}

/// A heap of 64 bytes at 0x1000 with a block of 16 at 0x1000 and one of 48 at 0x1010.
fn full(arena: &mut [u8]) -> (Lantern<'_>, Block, Block) {
    let mut lantern = Lantern::new(arena);
    lantern.open(0x1000, 64).unwrap();
    let one = lantern.allocate(16, 8).unwrap().block;
    let two = lantern.allocate(48, 8).unwrap().block;
    (lantern, one, two)
}

#[test]
fn the_papers_example() {
    let mut arena = vec![0; 65_536];
    let mut lantern = Lantern::new(&mut arena);
    assert_eq!(lantern.open(0x1000, 0x40), Ok(Opened { bottom: 0x1000, size: 0x40 }));
    let first = block(0x1000, 1, 1);
    assert_eq!(lantern.allocate(1, 1), Ok(Allocated { block: first, looked_at: 1 }));
    assert_eq!(lantern.allocate(0x10, 0x20), Ok(Allocated { block: block(0x1020, 0x10, 0x20), looked_at: 1 }));
    assert_eq!(lantern.allocate(0x18, 8), Err(Refusal::NoRoom { holes: 2 }));
    assert_eq!(lantern.free(first), Ok(Freed { rounded: 0x10, used: 0x10 }));
    assert_eq!(lantern.extend(7), Ok(Extended { size: 0x40, pending: 7 }));
    let (mut addrs, mut sizes) = ([5; 4], [6; 3]);
    assert_eq!(lantern.list(&mut addrs, &mut sizes), Ok(Listed { holes: 2, free: 0x30 }));
    assert_eq!((addrs, sizes), ([0x1000, 0x1030, 5, 5], [0x20, 0x10, 6]));
    assert_eq!(lantern.room(0x20), Ok(Room { largest: 0x20, holes: 2 }));
    let grown = Resized { block: block(0x1020, 0x20, 0x20), rounded: 0x20, used: 0x20 };
    assert_eq!(lantern.resize(block(0x1020, 0x10, 0x20), 0x20), Ok(grown));
    assert_eq!((lantern.bottom(), lantern.top(), lantern.size()), (0x1000, 0x1047, 0x40));
    assert_eq!((lantern.used(), lantern.free_bytes()), (0x20, 0x20));
}

#[test]
fn each_refusal_and_nothing_changes() {
    let mut space = [0xa5; 64];
    let mut lantern = Lantern::new(&mut space);
    let any = block(0x1000, 16, 8);
    assert_eq!(lantern.open(0, 64), Err(Refusal::BadOpening));
    assert_eq!(lantern.allocate(16, 3), Err(Refusal::Unopened));
    assert_eq!(lantern.free(any), Err(Refusal::Unopened));
    assert_eq!(lantern.resize(any, 8), Err(Refusal::Unopened));
    assert_eq!(lantern.extend(1), Err(Refusal::Unopened));
    assert_eq!(lantern.room(1), Err(Refusal::Unopened));
    let (mut addrs, mut sizes) = ([5], [6]);
    assert_eq!(lantern.list(&mut addrs, &mut sizes), Err(Refusal::Unopened));
    assert_eq!((addrs, sizes), ([5], [6]));
    assert_eq!((lantern.words(), lantern.arena()), ([0; 7], &[0xa5; 64][..]));

    let (mut lantern, one, two) = full(&mut space);
    let (words, bytes) = (lantern.words(), lantern.arena().to_vec());
    assert_eq!(lantern.open(0x1000, 64), Err(Refusal::AlreadyOpened));
    assert_eq!(lantern.allocate(16, 3), Err(Refusal::BadLayout));
    assert_eq!(lantern.allocate(u64::MAX, 1), Err(Refusal::BadLayout));
    assert_eq!(lantern.allocate(16, 8), Err(Refusal::NoRoom { holes: 0 }));
    assert_eq!(lantern.free(Block { align: 0, ..one }), Err(Refusal::BadLayout));
    assert_eq!(lantern.free(block(0x1008, 16, 8)), Err(Refusal::BadSpan));
    assert_eq!(lantern.resize(one, 24), Err(Refusal::BadStretch));
    assert_eq!(lantern.resize(two, 40), Err(Refusal::BadStretch));
    assert_eq!(lantern.resize(two, u64::MAX), Err(Refusal::BadLayout));
    assert_eq!(lantern.extend(1), Err(Refusal::PastArena));
    assert_eq!(lantern.extend(u64::MAX), Err(Refusal::PastArena));
    assert_eq!(lantern.room(1 << 63), Err(Refusal::BadLayout));
    assert_eq!((lantern.words(), lantern.arena()), (words, &bytes[..]));
}

#[test]
fn any_words_are_answered() {
    let mut space = [0xff; 64];
    let (lantern, one, _) = full(&mut space);
    let words = lantern.words();
    assert_eq!(Lantern::from_words(words, &mut [0; 63]).free(one), Err(Refusal::OtherLength));
    let mut wrong = words;
    wrong[6] -= 8;
    assert_eq!(Lantern::from_words(wrong, &mut space).free(one), Err(Refusal::NotSound));
    let mut hostile = Lantern::from_words([u64::MAX; 7], &mut []);
    assert_eq!(hostile.allocate(16, 8), Err(Refusal::OtherLength));
    assert_eq!(hostile.open(0x1000, 64), Err(Refusal::AlreadyOpened));
    assert_eq!((hostile.bottom(), hostile.top(), hostile.size()), (0, 0, 0));
    assert_eq!((hostile.used(), hostile.free_bytes()), (0, 0));
    assert_eq!(hostile.bytes(&block(u64::MAX, u64::MAX, 1)), None);
    let mut none = Lantern::new(&mut []);
    assert_eq!(none.open(0x1000, 0), Err(Refusal::BadOpening));
}

#[test]
fn a_heap_put_away_goes_on() {
    let mut space = [0; 64];
    let (lantern, one, two) = full(&mut space);
    let words = lantern.words();
    let arena = lantern.into_arena();
    let mut lantern = Lantern::from_words(words, arena);
    assert_eq!(lantern.free(two), Ok(Freed { rounded: 48, used: 16 }));
    assert_eq!(lantern.free(one), Ok(Freed { rounded: 16, used: 0 }));
    assert_eq!(lantern.free(one), Err(Refusal::BadSpan));
}

#[test]
fn bytes_of_blocks_lie_in_the_arena() {
    let mut space = [0; 64];
    assert_eq!(Lantern::new(&mut space).bytes(&block(0, 1, 1)), None);
    let (mut lantern, one, two) = full(&mut space);
    lantern.bytes_mut(&one).unwrap().fill(1);
    lantern.bytes_mut(&two).unwrap().fill(2);
    assert_eq!((lantern.bytes(&one).unwrap(), lantern.bytes(&two).unwrap()), (&[1; 16][..], &[2; 48][..]));
    assert_eq!(lantern.arena()[15..17], [1, 2]);
    assert_eq!(lantern.bytes(&block(0x1000, 64, 1)).unwrap().len(), 64);
    assert_eq!(lantern.bytes(&block(0x1040, 0, 1)), Some(&[][..]));
    for (addr, size) in [
        (0x1000, 65),
        (0x1040, 1),
        (0x1041, 0),
        (0xfff, 1),
        (0, 0x1010),
        (0x1000, u64::MAX),
        (0x1001, u64::MAX),
        (u64::MAX, 1),
        (u64::MAX, u64::MAX),
    ] {
        assert_eq!(lantern.bytes(&block(addr, size, 1)), None, "{addr:#x} {size:#x}");
        assert!(lantern.bytes_mut(&block(addr, size, 1)).is_none(), "{addr:#x} {size:#x}");
    }
    // size 5 is a block of 16, of which 5 were asked for
    lantern.free(one).unwrap();
    let five = lantern.allocate(5, 1).unwrap().block;
    assert_eq!(lantern.bytes(&five).unwrap().len(), 5);
}

#[test]
fn with_the_arenas_own_address_an_address_is_the_pointer() {
    let mut arena = [0; 1024];
    let mut lantern = Lantern::new(&mut arena);
    let own = lantern.arena().as_ptr() as u64;
    lantern.open(own, 1024).unwrap();
    let aligned = lantern.allocate(64, 64).unwrap().block;
    let pointer = lantern.bytes(&aligned).unwrap().as_ptr() as u64;
    assert_eq!((pointer, pointer % 64), (aligned.addr, 0));
}

#[test]
fn a_refusal_is_an_error_that_can_be_read() {
    let named = [
        Refusal::BadOpening,
        Refusal::AlreadyOpened,
        Refusal::Unopened,
        Refusal::OtherLength,
        Refusal::NotSound,
        Refusal::BadLayout,
        Refusal::NoRoom { holes: 2 },
        Refusal::BadSpan,
        Refusal::PastArena,
        Refusal::BadStretch,
    ];
    for (refusal, number) in named.into_iter().zip(1..) {
        assert_eq!(refusal.number(), number);
        let error: Box<dyn std::error::Error> = refusal.into();
        assert!(error.to_string().starts_with(&format!("refusal {number}: ")));
    }
    assert_eq!(Refusal::NoRoom { holes: 2 }.to_string(), "refusal 7: no hole suits, of 2");
    assert_eq!(Refusal::Other(99).to_string(), "refusal 99: a refusal that this version has no name for");
}

#[test]
fn debug_tells_the_words_and_not_the_arena() {
    let text = format!("{:?}", Lantern::new(&mut [77; 3]));
    let words = "base: 0, arena_length: 0, bottom: 0, top: 0, first: 0, pending: 0, used: 0";
    assert_eq!(text, format!("Lantern {{ {words}, .. }}"));
}
