//! The border to the static library: `include/tunaprow.h` in Rust. Nothing checks these declarations.

/// How the rounds of a table are played.
#[repr(C)]
pub struct Terms {
    pub variables: usize,
    pub bits: usize,
    pub batching: u32,
    pub suffix: bool,
    pub coefficients: bool,
    pub hash: bool,
}

/// What a round sends, modulo 65537.
#[repr(C)]
#[derive(Clone, Copy, Debug, Default, PartialEq, Eq)]
pub struct TableRound {
    /// The value of its polynomial at 0; with coefficients in the table that at 1.
    pub first: u32,
    /// The leading coefficient, of the square of the variable.
    pub leading: u32,
}

/// What rounds are found to be.
#[repr(C)]
#[derive(Clone, Copy, Default)]
pub struct Found {
    pub verdict: u32,
    pub round: usize,
    pub vanishing: u64,
    pub coefficients: usize,
}

/// The figures of a report.
#[repr(C)]
#[derive(Clone, Copy, Default)]
pub struct Figures {
    pub claim: u32,
    pub residual: u32,
    pub eval: u32,
    pub weight: u32,
    pub found: Found,
}

extern "C" {
    pub fn tunaprow_reply(
        word: *const u8,
        word_length: usize,
        job: *const u8,
        job_length: usize,
        out: *mut u8,
        out_length: usize,
        written: *mut usize,
        needed: *mut usize,
    ) -> u8;

    pub fn tunaprow_make(
        variables: u64,
        number: u64,
        strategy: *const u8,
        strategy_length: usize,
        out: *mut u8,
        out_length: usize,
        written: *mut usize,
        needed: *mut usize,
    ) -> u8;

    pub fn tunaprow_check_65537(
        terms: *const Terms,
        table: *const u32,
        table_length: usize,
        points: *const u32,
        points_length: usize,
        values: *const u32,
        values_length: usize,
        draws: *const u32,
        draws_length: usize,
        rounds: *const TableRound,
        rounds_length: usize,
        witnesses: *const u32,
        witnesses_length: usize,
        figures: *mut Figures,
        challenges: *mut u32,
        challenges_length: usize,
        polynomial: *mut u32,
        polynomial_length: usize,
    ) -> u8;

    pub fn tunaprow_build_65537(
        terms: *const Terms,
        table: *const u32,
        table_length: usize,
        points: *const u32,
        points_length: usize,
        values: *const u32,
        values_length: usize,
        draws: *const u32,
        draws_length: usize,
        rounds: *mut TableRound,
        rounds_length: usize,
        witnesses: *mut u32,
        witnesses_length: usize,
        figures: *mut Figures,
        challenges: *mut u32,
        challenges_length: usize,
        polynomial: *mut u32,
        polynomial_length: usize,
    ) -> u8;
}

/// The heap of the library, over `std::alloc`.
///
/// `std::alloc` wants a block's size when it is given back, and the library does not tell it. So each block has a head
/// before it that holds the size of both.
#[cfg(feature = "heap")]
mod heap {
    use std::alloc::{alloc, dealloc, realloc, Layout};
    use std::ptr::NonNull;

    /// The size of the head, and the alignment of each block, which is the widest that is asked for.
    const HEAD: usize = 16;

    /// Whether there is memory, and where.
    #[repr(C)]
    pub struct Block {
        pub found: bool,
        pub at: *mut u8,
    }

    impl Block {
        /// The block behind a head that stands here and has this size, or the refusal if there is none.
        ///
        /// # Safety
        ///
        /// An address that is not null has memory of this size, at least that of a head, aligned to it.
        unsafe fn behind(head: *mut u8, size: usize) -> Block {
            if head.is_null() {
                return Block::refused();
            }
            head.cast::<usize>().write(size);
            Block { found: true, at: head.add(HEAD) }
        }

        fn refused() -> Block {
            Block { found: false, at: NonNull::dangling().as_ptr() }
        }
    }

    /// The layout of a head and a block of a size, or of `align` bytes for the size 0.
    fn layout_of(size: usize, align: usize) -> Option<Layout> {
        let block = if size == 0 { align } else { size };
        Layout::from_size_align(block.checked_add(HEAD)?, HEAD).ok()
    }

    #[no_mangle]
    pub unsafe extern "C" fn rattle_alloc(size: usize, align: usize) -> Block {
        match layout_of(size, align) {
            Some(layout) => Block::behind(alloc(layout), layout.size()),
            None => Block::refused(),
        }
    }

    #[no_mangle]
    pub unsafe extern "C" fn rattle_realloc(at: *mut u8, _kept: usize, size: usize, align: usize) -> Block {
        let head = at.sub(HEAD);
        match layout_of(size, align) {
            Some(layout) => Block::behind(realloc(head, layout_at(head), layout.size()), layout.size()),
            None => Block::refused(),
        }
    }

    #[no_mangle]
    pub unsafe extern "C" fn rattle_dealloc(at: *mut u8) {
        let head = at.sub(HEAD);
        dealloc(head, layout_at(head));
    }

    /// The layout that a head and its block were allocated with.
    ///
    /// # Safety
    ///
    /// One of the functions above made the head, and it was not given back.
    unsafe fn layout_at(head: *mut u8) -> Layout {
        Layout::from_size_align_unchecked(head.cast::<usize>().read(), HEAD)
    }
}

#[cfg(all(test, feature = "heap"))]
mod tests {
    use super::heap::{rattle_alloc, rattle_dealloc, rattle_realloc};

    #[test]
    fn blocks_are_aligned_and_keep_their_bytes() {
        for size in [0, 1, 7, 16, 100_000] {
            // SAFETY: each block is written within its size, and given back once.
            unsafe {
                let block = rattle_alloc(size, 16);
                assert!(block.found && block.at as usize % 16 == 0);
                block.at.write_bytes(0x5A, size);
                let grown = rattle_realloc(block.at, size, 3 * size + 5, 8);
                assert!(grown.found && grown.at as usize % 16 == 0);
                grown.at.add(size).write_bytes(0xA5, 2 * size + 5);
                let shrunk = rattle_realloc(grown.at, size + 1, size + 1, 1);
                let bytes = std::slice::from_raw_parts(shrunk.at, size + 1);
                assert!(bytes[..size].iter().all(|&byte| byte == 0x5A) && bytes[size] == 0xA5);
                rattle_dealloc(shrunk.at);
            }
        }
    }

    #[test]
    fn a_block_that_no_memory_holds_is_refused() {
        // SAFETY: a refused block is not used, and the other one is as it was.
        unsafe {
            assert!(!rattle_alloc(usize::MAX, 1).found);
            let block = rattle_alloc(1, 1);
            block.at.write(7);
            assert!(!rattle_realloc(block.at, 1, usize::MAX - 15, 1).found);
            assert_eq!(block.at.read(), 7);
            rattle_dealloc(block.at);
        }
    }
}
