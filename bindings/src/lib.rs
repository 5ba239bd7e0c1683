//! Leanlantern is a small heap: it deals out blocks of memory that its caller lends, and takes them back. What it
//! answers is proved, down to every byte; this package is the Rust face of its static library. The face itself is not
//! proved, but tried.
//!
//! A [`Lantern`] borrows an arena of bytes and keeps the heap's seven words. Each call answers with a struct of named
//! fields, or with a [`Refusal`], which changes nothing.
//!
//! ```
//! use leanlantern::{Lantern, Refusal};
//!
//! fn main() -> Result<(), Refusal> {
//!     let mut arena = [0; 4096];
//!     let mut lantern = Lantern::new(&mut arena);
//!     lantern.open(0x1000, 4096)?; // the arena's first byte counts as 0x1000, and the heap gets all 4,096
//!
//!     let herring = lantern.allocate(24, 8)?.block;
//!     lantern.bytes_mut(&herring).unwrap().fill(7);
//!     let herring = lantern.resize(herring, 64)?.block; // where it lies; the first 24 bytes stay
//!     assert_eq!(lantern.bytes(&herring).unwrap()[..24], [7; 24]);
//!
//!     assert_eq!(lantern.free(herring)?.used, 0);
//!     assert_eq!(lantern.room(8)?.largest, 4096);
//!     Ok(())
//! }
//! ```
//!
//! Alignments are of addresses, which are counted from the base, and not of pointers. Where a pointer must be aligned,
//! open with the arena's own address, `lantern.arena().as_ptr() as u64`; an address is then the pointer.
//!
//! The build looks for `libleanlantern.a` in the folder that `LEANLANTERN_LIB_DIR` names, else in `target/staticlib` of
//! the repository that the package stands in. The package has no dependencies and needs no `std`.

#![no_std]
#![deny(missing_docs)]
#![deny(unsafe_code)]
#![forbid(unsafe_op_in_unsafe_fn)]

mod answers;
#[allow(unsafe_code)]
mod raw;
mod refusal;

pub use answers::{Allocated, Block, Extended, Freed, Listed, Opened, Resized, Room};
pub use refusal::Refusal;

use core::fmt;
use core::ops::Range;
use raw::Words;

/// A heap over a borrowed arena.
///
/// It keeps the heap's seven words and nothing else; every head of a hole lies in the arena. Whatever words and bytes it
/// has, each call ends with its answer.
pub struct Lantern<'a> {
    /// base, arena length, bottom, top, first, pending, used
    words: Words,
    arena: &'a mut [u8],
}

impl<'a> Lantern<'a> {
    /// An unopened heap. The arena may hold any bytes.
    #[inline]
    pub fn new(arena: &'a mut [u8]) -> Self {
        Lantern { words: [0; 7], arena }
    }

    /// A heap of any seven words: base, arena length, bottom, top, first, pending, used.
    ///
    /// With the [`words`](Lantern::words) and the arena of a heap that was put away, it goes on. Nothing is tested here:
    /// any words may be lent, and a call on words or bytes that break a rule is refused, with
    /// [`OtherLength`](Refusal::OtherLength) or [`NotSound`](Refusal::NotSound).
    ///
    /// ```
    /// use leanlantern::Lantern;
    ///
    /// let mut arena = [0; 256];
    /// let mut lantern = Lantern::new(&mut arena);
    /// lantern.open(0x1000, 256)?;
    /// let block = lantern.allocate(24, 8)?.block;
    /// let words = lantern.words();
    /// // the arena is free for other use here; it must come back as it was
    /// assert_eq!(arena.len(), 256);
    /// let mut lantern = Lantern::from_words(words, &mut arena);
    /// assert_eq!(lantern.free(block)?.used, 0);
    /// # Ok::<(), leanlantern::Refusal>(())
    /// ```
    #[inline]
    pub fn from_words(words: [u64; 7], arena: &'a mut [u8]) -> Self {
        Lantern { words, arena }
    }

    /// The seven words: base, arena length, bottom, top, first, pending, used. Unopened: seven zeros.
    #[inline]
    pub fn words(&self) -> [u64; 7] {
        self.words
    }

    /// The whole arena.
    #[inline]
    pub fn arena(&self) -> &[u8] {
        self.arena
    }

    /// The whole arena, to be written.
    ///
    /// The first 16 bytes of each hole are its head, and whoever writes over a head bends the list: a later call may be
    /// refused with [`NotSound`](Refusal::NotSound), or see other holes. All other bytes may be written at any time and
    /// change no answer. [`bytes_mut`](Lantern::bytes_mut) gives the bytes of one block.
    #[inline]
    pub fn arena_mut(&mut self) -> &mut [u8] {
        self.arena
    }

    /// The arena, given back to its lender.
    #[inline]
    pub fn into_arena(self) -> &'a mut [u8] {
        self.arena
    }

    /// Opens the heap. The arena's first byte counts as the address `base`, and the heap gets the first `named` bytes;
    /// the rest is there for [`extend`](Lantern::extend).
    ///
    /// Refused with [`AlreadyOpened`](Refusal::AlreadyOpened), [`BadOpening`](Refusal::BadOpening).
    ///
    /// ```
    /// use leanlantern::{Lantern, Opened, Refusal};
    ///
    /// let mut arena = [0; 64];
    /// let mut lantern = Lantern::new(&mut arena);
    /// assert_eq!(lantern.open(0x1001, 22), Err(Refusal::BadOpening));
    /// assert_eq!(lantern.open(0x1001, 23), Ok(Opened { bottom: 0x1008, size: 16 }));
    /// assert_eq!(lantern.open(0x1001, 23), Err(Refusal::AlreadyOpened));
    /// ```
    #[inline]
    pub fn open(&mut self, base: u64, named: u64) -> Result<Opened, Refusal> {
        let told = raw::open(&mut self.words, self.arena, base, named);
        told.map(|(bottom, size)| Opened { bottom, size })
    }

    /// Grants a block of `size` bytes at the lowest address that suits, which is a multiple of `align`.
    ///
    /// Refused with [`Unopened`](Refusal::Unopened), [`OtherLength`](Refusal::OtherLength),
    /// [`NotSound`](Refusal::NotSound), [`BadLayout`](Refusal::BadLayout), [`NoRoom`](Refusal::NoRoom).
    ///
    /// ```
    /// use leanlantern::{Lantern, Refusal};
    ///
    /// let mut arena = [0; 64];
    /// let mut lantern = Lantern::new(&mut arena);
    /// lantern.open(0x1000, 64)?;
    /// assert_eq!(lantern.allocate(1, 1)?.block.addr, 0x1000);
    /// assert_eq!(lantern.allocate(0x10, 0x20)?.block.addr, 0x1020);
    /// assert_eq!(lantern.allocate(0x18, 8), Err(Refusal::NoRoom { holes: 2 }));
    /// assert_eq!(lantern.allocate(0x18, 3), Err(Refusal::BadLayout));
    /// # Ok::<(), Refusal>(())
    /// ```
    #[inline]
    pub fn allocate(&mut self, size: u64, align: u64) -> Result<Allocated, Refusal> {
        let told = raw::allocate(&mut self.words, self.arena, size, align);
        told.map(|(addr, looked_at)| Allocated { block: Block { addr, size, align }, looked_at })
    }

    /// Takes a block back. It becomes a hole and joins the holes that it touches.
    ///
    /// That a wrong block is caught is not promised: held bytes that are named by another address, size or alignment
    /// are taken if they could be a block. A block that is freed twice in a row is refused.
    ///
    /// Refused with [`Unopened`](Refusal::Unopened), [`OtherLength`](Refusal::OtherLength),
    /// [`NotSound`](Refusal::NotSound), [`BadLayout`](Refusal::BadLayout), [`BadSpan`](Refusal::BadSpan).
    ///
    /// ```
    /// use leanlantern::{Freed, Lantern, Refusal};
    ///
    /// let mut arena = [0; 64];
    /// let mut lantern = Lantern::new(&mut arena);
    /// lantern.open(0x1000, 64)?;
    /// let block = lantern.allocate(1, 1)?.block;
    /// assert_eq!(lantern.free(block), Ok(Freed { rounded: 16, used: 0 }));
    /// assert_eq!(lantern.free(block), Err(Refusal::BadSpan));
    /// # Ok::<(), Refusal>(())
    /// ```
    #[inline]
    pub fn free(&mut self, block: Block) -> Result<Freed, Refusal> {
        let told = raw::free(&mut self.words, self.arena, block.addr, block.size, block.align);
        told.map(|(rounded, used)| Freed { rounded, used })
    }

    /// Gives a block a new size where it lies. The bytes that both sizes have stay. Refused, the block is what it was.
    ///
    /// As with [`free`](Lantern::free), that a wrong block is caught is not promised.
    ///
    /// Refused with [`Unopened`](Refusal::Unopened), [`OtherLength`](Refusal::OtherLength),
    /// [`NotSound`](Refusal::NotSound), [`BadLayout`](Refusal::BadLayout) for the old size and then for the new one,
    /// [`BadSpan`](Refusal::BadSpan), [`BadStretch`](Refusal::BadStretch).
    ///
    /// ```
    /// use leanlantern::{Lantern, Refusal};
    ///
    /// let mut arena = [0; 64];
    /// let mut lantern = Lantern::new(&mut arena);
    /// lantern.open(0x1000, 64)?;
    /// let block = lantern.allocate(16, 8)?.block;
    /// assert_eq!(lantern.resize(block, 56), Err(Refusal::BadStretch)); // 8 bytes would be left
    /// let grown = lantern.resize(block, 60)?;
    /// assert_eq!((grown.block.addr, grown.block.size, grown.rounded, grown.used), (0x1000, 60, 64, 64));
    /// # Ok::<(), Refusal>(())
    /// ```
    #[inline]
    pub fn resize(&mut self, block: Block, new_size: u64) -> Result<Resized, Refusal> {
        let told = raw::resize(&mut self.words, self.arena, block.addr, block.size, block.align, new_size);
        told.map(|(rounded, used)| Resized { block: Block { size: new_size, ..block }, rounded, used })
    }

    /// Gives the heap `by` bytes more of its arena. Under 16 bytes wait at its top until there are more.
    ///
    /// Refused with [`Unopened`](Refusal::Unopened), [`OtherLength`](Refusal::OtherLength),
    /// [`NotSound`](Refusal::NotSound), [`PastArena`](Refusal::PastArena).
    ///
    /// ```
    /// use leanlantern::{Extended, Lantern, Refusal};
    ///
    /// let mut arena = [0; 64];
    /// let mut lantern = Lantern::new(&mut arena);
    /// lantern.open(0x1000, 32)?;
    /// assert_eq!(lantern.extend(15), Ok(Extended { size: 32, pending: 15 }));
    /// assert_eq!(lantern.extend(2), Ok(Extended { size: 48, pending: 1 }));
    /// assert_eq!(lantern.extend(16), Err(Refusal::PastArena));
    /// # Ok::<(), Refusal>(())
    /// ```
    #[inline]
    pub fn extend(&mut self, by: u64) -> Result<Extended, Refusal> {
        let told = raw::extend(&mut self.words, self.arena, by);
        told.map(|(size, pending)| Extended { size, pending })
    }

    /// The largest rounded size that [`allocate`](Lantern::allocate) would grant at the alignment, and how many holes
    /// there are.
    ///
    /// Refused with [`Unopened`](Refusal::Unopened), [`OtherLength`](Refusal::OtherLength),
    /// [`NotSound`](Refusal::NotSound), [`BadLayout`](Refusal::BadLayout), which counts the size as 16.
    ///
    /// ```
    /// use leanlantern::{Lantern, Refusal, Room};
    ///
    /// let mut arena = [0; 64];
    /// let mut lantern = Lantern::new(&mut arena);
    /// lantern.open(0x1000, 64)?;
    /// lantern.allocate(16, 8)?;
    /// assert_eq!(lantern.room(8), Ok(Room { largest: 48, holes: 1 }));
    /// assert_eq!(lantern.room(0x20), Ok(Room { largest: 32, holes: 1 }));
    /// # Ok::<(), Refusal>(())
    /// ```
    #[inline]
    pub fn room(&self, align: u64) -> Result<Room, Refusal> {
        let told = raw::room(&self.words, self.arena, align);
        told.map(|(largest, holes)| Room { largest, holes })
    }

    /// The holes in order: their addresses and sizes go into the two rows, as many as the shorter row holds. The rest of
    /// the rows stays.
    ///
    /// Refused with [`Unopened`](Refusal::Unopened), [`OtherLength`](Refusal::OtherLength),
    /// [`NotSound`](Refusal::NotSound).
    ///
    /// ```
    /// use leanlantern::{Lantern, Listed, Refusal};
    ///
    /// let mut arena = [0; 64];
    /// let mut lantern = Lantern::new(&mut arena);
    /// lantern.open(0x1000, 64)?;
    /// lantern.allocate(16, 0x20)?;
    /// let (mut addrs, mut sizes) = ([0; 3], [0; 3]);
    /// assert_eq!(lantern.list(&mut addrs, &mut sizes), Ok(Listed { holes: 1, free: 48 }));
    /// assert_eq!((addrs, sizes), ([0x1010, 0, 0], [48, 0, 0]));
    /// # Ok::<(), Refusal>(())
    /// ```
    #[inline]
    pub fn list(&self, addrs: &mut [u64], sizes: &mut [u64]) -> Result<Listed, Refusal> {
        let told = raw::list(&self.words, self.arena, addrs, sizes);
        told.map(|(holes, free)| Listed { holes, free })
    }

    /// Where the heap begins. 0, as every reader, where the heap is unopened or its numbers break a rule.
    #[inline]
    pub fn bottom(&self) -> u64 {
        raw::bottom(&self.words)
    }

    /// Where the heap ends, counting the bytes that wait there.
    #[inline]
    pub fn top(&self) -> u64 {
        raw::top(&self.words)
    }

    /// How many bytes the heap deals out. Those that wait at its top do not count.
    #[inline]
    pub fn size(&self) -> u64 {
        raw::size(&self.words)
    }

    /// How many bytes are held: the sum of the rounded sizes.
    #[inline]
    pub fn used(&self) -> u64 {
        raw::used(&self.words)
    }

    /// How many bytes are free: size less used.
    #[inline]
    pub fn free_bytes(&self) -> u64 {
        raw::free_bytes(&self.words)
    }

    /// The bytes of a block: as many as its size says.
    ///
    /// `None` where the heap is not opened, or the block does not lie whole in the arena. That the block is held is not
    /// tested.
    ///
    /// ```
    /// use leanlantern::{Block, Lantern};
    ///
    /// let mut arena = [0; 64];
    /// let mut lantern = Lantern::new(&mut arena);
    /// lantern.open(0x1000, 64)?;
    /// let block = lantern.allocate(5, 1)?.block;
    /// lantern.bytes_mut(&block).unwrap().copy_from_slice(b"seals");
    /// assert_eq!(lantern.bytes(&block), Some(&b"seals"[..]));
    /// assert_eq!(lantern.bytes(&Block { addr: 0x1040, ..block }), None);
    /// # Ok::<(), leanlantern::Refusal>(())
    /// ```
    #[inline]
    pub fn bytes(&self, block: &Block) -> Option<&[u8]> {
        let places = self.places(block)?;
        self.arena.get(places)
    }

    /// The bytes of a block, to be written. As [`bytes`](Lantern::bytes) otherwise.
    #[inline]
    pub fn bytes_mut(&mut self, block: &Block) -> Option<&mut [u8]> {
        let places = self.places(block)?;
        self.arena.get_mut(places)
    }

    /// The places of a block's bytes, counted from the arena's start. The arena may end before them.
    fn places(&self, block: &Block) -> Option<Range<usize>> {
        let [base, _, bottom, ..] = self.words;
        if bottom == 0 {
            return None;
        }
        let start = usize::try_from(block.addr.checked_sub(base)?).ok()?;
        let end = start.checked_add(usize::try_from(block.size).ok()?)?;
        Some(start..end)
    }
}

/// The seven words by name. The arena's bytes are left out.
impl fmt::Debug for Lantern<'_> {
    fn fmt(&self, f: &mut fmt::Formatter<'_>) -> fmt::Result {
        let [base, arena_length, bottom, top, first, pending, used] = self.words;
        f.debug_struct("Lantern")
            .field("base", &base)
            .field("arena_length", &arena_length)
            .field("bottom", &bottom)
            .field("top", &top)
            .field("first", &first)
            .field("pending", &pending)
            .field("used", &used)
            .finish_non_exhaustive()
    }
}
