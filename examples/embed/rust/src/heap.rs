//! The library's memory, from the program's global allocator: `#[global_allocator]` is the choice of the program.
//!
//! The library gives a block back without its size, so the size stands in 16 bytes before the block.
use std::alloc::{Layout, alloc, dealloc, realloc};
use std::ptr::NonNull;

/// The bytes before a block, which keep it aligned to each power of two up to 16.
const HEAD: usize = 16;

/// A block, or where `ok` is 0 an address that is not to be used.
#[repr(C)]
pub struct Block {
    ok: usize,
    at: *mut u8,
}

const REFUSED: Block = Block { ok: 0, at: NonNull::dangling().as_ptr() };

/// The layout of a block of this size with what stands before it.
fn layout(size: usize) -> Option<Layout> {
    Layout::from_size_align(size.checked_add(HEAD)?, HEAD).ok()
}

/// The block behind its head, in which its size is noted.
///
/// # Safety
///
/// `head` is null, or begins what the layout of this size needs.
unsafe fn noted(head: *mut u8, size: usize) -> Block {
    if head.is_null() {
        return REFUSED;
    }
    // SAFETY: the head has room for the size, and the block stands behind it.
    unsafe {
        head.cast::<usize>().write(size);
        Block { ok: 1, at: head.add(HEAD) }
    }
}

/// The head of a block, and its layout.
///
/// # Safety
///
/// `noted` gave the block.
unsafe fn head_of(at: *mut u8) -> (*mut u8, Layout) {
    // SAFETY: the head stands before the block, and the size in it had a layout.
    unsafe {
        let head = at.sub(HEAD);
        (head, layout(head.cast::<usize>().read()).unwrap_unchecked())
    }
}

/// Gives the library a block of so many bytes; alignments are powers of two up to 16.
#[unsafe(no_mangle)]
extern "C" fn rattle_alloc(size: usize, _align: usize) -> Block {
    match layout(size) {
        // SAFETY: the layout has a head, so its size is not 0.
        Some(layout) => unsafe { noted(alloc(layout), size) },
        None => REFUSED,
    }
}

/// Gives the library a block of another size for one that it has.
///
/// # Safety
///
/// The block is one that the library was given.
#[unsafe(no_mangle)]
unsafe extern "C" fn rattle_realloc(at: *mut u8, _old: usize, size: usize, _align: usize) -> Block {
    let Some(new) = layout(size) else {
        return REFUSED;
    };
    // SAFETY: the block is one of ours, and the new size is not 0. Where it is refused, the old block stays.
    unsafe {
        let (head, old) = head_of(at);
        noted(realloc(head, old, new.size()), size)
    }
}

/// Takes a block back.
///
/// # Safety
///
/// The block is one that the library was given, and it does not use it again.
#[unsafe(no_mangle)]
unsafe extern "C" fn rattle_dealloc(at: *mut u8) {
    // SAFETY: the block is one of ours.
    unsafe {
        let (head, layout) = head_of(at);
        dealloc(head, layout);
    }
}
