//! The original alone: how it is opened, its holes, its grants, and spans given back to it.

use linked_list_allocator::hole::HoleList;
use linked_list_allocator::Heap;
use std::alloc::Layout;
use std::mem::MaybeUninit;
use std::ptr::NonNull;

/// The four ways in which the original is opened.
#[derive(Clone, Copy)]
pub enum Way {
    Init,
    InitFromSlice,
    New,
    FromSlice,
}

pub const WAYS: [Way; 4] = [Way::Init, Way::InitFromSlice, Way::New, Way::FromSlice];

/// An empty heap is opened, or a new one takes its place. The memory must stay for as long as the heap is used.
pub fn opened(heap: &mut Heap, start: *mut u8, named: usize, way: Way) {
    let slice: fn(*mut u8, usize) -> &'static mut [MaybeUninit<u8>] = |p, n| unsafe { std::slice::from_raw_parts_mut(p.cast(), n) };
    match way {
        Way::Init => unsafe { heap.init(start, named) },
        Way::InitFromSlice => heap.init_from_slice(slice(start, named)),
        Way::New => *heap = unsafe { Heap::new(start, named) },
        Way::FromSlice => *heap = Heap::from_slice(slice(start, named)),
    }
}

pub fn holes_of(heap: &Heap) -> Vec<(u64, u64)> {
    let mut holes = Vec::new();
    heap.read_list(&mut |a, s| holes.push((a as u64, s as u64)));
    holes
}

/// The block that the original grants, if it does.
pub fn asked(heap: &mut Heap, size: u64, align: u64) -> Option<(NonNull<u8>, Layout)> {
    let layout = Layout::from_size_align(size as usize, align as usize).ok()?;
    Some((heap.allocate_first_fit(layout).ok()?, layout))
}

/// Whether the original grants it. What it grants is given back at once.
pub fn granted(heap: &mut Heap, size: u64, align: u64) -> bool {
    let Some((p, layout)) = asked(heap, size, align) else { return false };
    unsafe { heap.deallocate(p, layout) };
    true
}

/// The size as the original rounds it, if the layout is valid.
pub fn rounded(size: u64, align: u64) -> Option<u64> {
    let layout = Layout::from_size_align(size as usize, align as usize).ok()?;
    Some(HoleList::align_layout(layout).ok()?.size() as u64)
}

/// A span of at least 16 bytes is given back to the original.
pub fn give_back(heap: &mut Heap, addr: u64, size: u64) {
    let layout = Layout::from_size_align(size as usize, 1).unwrap();
    unsafe { heap.deallocate(NonNull::new(addr as *mut u8).unwrap(), layout) };
}
