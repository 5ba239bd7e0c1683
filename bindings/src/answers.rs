/// A block: the name by which it was granted and by which it is freed and resized.
///
/// A block is a name and not an owner. It can be copied, and made of any three numbers, for whoever keeps their blocks
/// elsewhere. [`Lantern::free`](crate::Lantern::free) says what is not caught if a wrong one is named.
#[derive(Clone, Copy, Debug, PartialEq, Eq, Hash)]
pub struct Block {
    /// The address of its first byte. Addresses are counted from the base, which [`Lantern::open`](crate::Lantern::open)
    /// was given for the arena's first byte.
    pub addr: u64,
    /// The size that was asked for. The block itself has the rounded size: at least 16, and a multiple of 8.
    pub size: u64,
    /// The alignment that was asked for.
    pub align: u64,
}

/// What [`Lantern::open`](crate::Lantern::open) answers.
#[derive(Clone, Copy, Debug, PartialEq, Eq, Hash)]
pub struct Opened {
    /// Where the heap begins: the base, rounded up to 8.
    pub bottom: u64,
    /// How many bytes it deals out.
    pub size: u64,
}

/// What [`Lantern::allocate`](crate::Lantern::allocate) answers.
#[derive(Clone, Copy, Debug, PartialEq, Eq, Hash)]
pub struct Allocated {
    /// The block, with the size and the alignment that were asked for.
    pub block: Block,
    /// How many holes were looked at, the used one included.
    pub looked_at: u64,
}

/// What [`Lantern::free`](crate::Lantern::free) answers.
#[derive(Clone, Copy, Debug, PartialEq, Eq, Hash)]
pub struct Freed {
    /// The rounded size that was given back.
    pub rounded: u64,
    /// How many bytes are still held.
    pub used: u64,
}

/// What [`Lantern::resize`](crate::Lantern::resize) answers.
#[derive(Clone, Copy, Debug, PartialEq, Eq, Hash)]
pub struct Resized {
    /// The block, with its new size. The old name is no longer good.
    pub block: Block,
    /// Its new rounded size.
    pub rounded: u64,
    /// How many bytes are held now.
    pub used: u64,
}

/// What [`Lantern::extend`](crate::Lantern::extend) answers.
#[derive(Clone, Copy, Debug, PartialEq, Eq, Hash)]
pub struct Extended {
    /// How many bytes the heap deals out now.
    pub size: u64,
    /// How many bytes wait behind its top, at most 15.
    pub pending: u64,
}

/// What [`Lantern::list`](crate::Lantern::list) answers.
#[derive(Clone, Copy, Debug, PartialEq, Eq, Hash)]
pub struct Listed {
    /// How many holes there are.
    pub holes: u64,
    /// How many bytes they have together.
    pub free: u64,
}

/// What [`Lantern::room`](crate::Lantern::room) answers.
#[derive(Clone, Copy, Debug, PartialEq, Eq, Hash)]
pub struct Room {
    /// The largest rounded size that would be granted at the alignment, 0 if none.
    pub largest: u64,
    /// How many holes there are.
    pub holes: u64,
}
