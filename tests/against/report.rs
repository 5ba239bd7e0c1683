//! A difference, which ends the comparison, and the counts of what agreed.

#[derive(Default)]
pub struct Counts {
    pub calls: u64,
    pub grants: u64,
    pub no_room: u64,
    pub layouts: u64,
    pub frees: u64,
    pub resizes: u64,
    pub tails: u64,
    pub taken: u64,
    pub stretches: u64,
    pub extends: u64,
    pub past: u64,
    pub lists: u64,
    pub holes: u64,
    pub most: u64,
    pub rooms: u64,
    pub bytes: u64,
    pub runs: u64,
    /// Calls on an unopened heap, and those of them that are requests to both sides.
    pub unopened: u64,
    pub unopened_requests: u64,
    /// Grants, frees and resizes at places from 65,536 on.
    pub far: u64,
    /// Lists in which the first hole lies there.
    pub far_first: u64,
    /// Lists of more than 65,536 holes.
    pub long: u64,
    /// Lists that were written into our arena.
    pub carried: u64,
    /// The most holes that calls of both sides made.
    pub built: u64,
    /// Runs on the largest arena.
    pub largest: u64,
    /// Calls by chance, after the holes are made.
    pub by_chance: u64,
}

impl Counts {
    pub fn print(&self) {
        println!(
            "agree: {} calls in {} runs ({} grants, {} without room, {} bad layouts, {} frees, {} extensions, {} past the arena, {} resizes, {} without stretch); {} resizes gave back a tail, {} took a hole; {} lists with {} holes, at most {}; {} room reports; {} held bytes; {} calls before an opening, of which {} are requests to both",
            self.calls,
            self.runs,
            self.grants,
            self.no_room,
            self.layouts,
            self.frees,
            self.extends,
            self.past,
            self.resizes,
            self.stretches,
            self.tails,
            self.taken,
            self.lists,
            self.holes,
            self.most,
            self.rooms,
            self.bytes,
            self.unopened,
            self.unopened_requests
        );
    }

    /// What only large arenas have.
    pub fn print_far(&self) {
        println!(
            "of these: {} runs on the largest arena; {} calls by chance; {} grants, frees and resizes at places from 65,536 on; {} lists with no hole below, {} lists of more than 65,536 holes; {} holes made by frees of both sides, {} lists carried over",
            self.largest, self.by_chance, self.far, self.far_first, self.long, self.built, self.carried
        );
    }
}

pub fn differ(what: &str, original: impl std::fmt::Debug, ours: impl std::fmt::Debug) -> ! {
    eprintln!("DIFFERENCE: {what}: original {original:?}, ours {ours:?}");
    std::process::exit(1)
}

pub fn same<T: PartialEq + std::fmt::Debug>(what: &str, original: T, ours: T) {
    if original != ours {
        differ(what, original, ours)
    }
}

/// From here on, that the original panics is a difference: ours never does.
pub fn panics_differ() {
    let hook = std::panic::take_hook();
    std::panic::set_hook(Box::new(move |info| {
        let at = info.location().map_or(("", 0), |l| (l.file().rsplit('/').next().unwrap_or(""), l.line()));
        if ["hole.rs", "lib.rs"].contains(&at.0) {
            let text = info.payload().downcast_ref::<&str>().map(|s| s.to_string());
            let text = text.or_else(|| info.payload().downcast_ref::<String>().cloned());
            differ("the original panics", (at, text.unwrap_or_default()), "no panic")
        }
        hook(info)
    }));
}
