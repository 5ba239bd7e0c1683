// The lines of crates/limits as the original gives them: Rust's own Layout decides what is valid, and
// HoleList::align_layout rounds it. tests/limits.sh builds and runs this beside the original's files.

use core::alloc::Layout;

fn main() {
    let sizes: [usize; 16] = [
        0, 1, 15, 16, 17,
        0x3fff_ffff_ffff_fff8, 0x4000_0000_0000_0000, 0x4000_0000_0000_0001,
        0x7fff_ffff_ffff_f000, 0x7fff_ffff_ffff_fff8, 0x7fff_ffff_ffff_fff9, 0x7fff_ffff_ffff_ffff,
        0x8000_0000_0000_0000, 0x8000_0000_0000_0001, 0xffff_ffff_ffff_fff8, 0xffff_ffff_ffff_ffff,
    ];
    let aligns: [usize; 10] = [
        0, 1, 2, 3, 8, 4096,
        0x4000_0000_0000_0000, 0x7fff_ffff_ffff_ffff, 0x8000_0000_0000_0000, 0xffff_ffff_ffff_ffff,
    ];
    for size in sizes {
        for align in aligns {
            print!("{size:016x} {align:016x} ");
            let rounded = Layout::from_size_align(size, align)
                .ok()
                .and_then(|layout| linked_list_allocator::hole::HoleList::align_layout(layout).ok());
            match rounded {
                Some(layout) => println!("{:016x}", layout.size()),
                None => println!("-"),
            }
        }
    }
}
