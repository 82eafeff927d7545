//! Buffers that end right before a page that may not be touched: a call that reads or writes past the end
//! of what it was lent crashes there and then.

#[cfg(all(target_os = "linux", target_arch = "x86_64"))]
mod pages {
    extern "C" {
        fn mmap(at: *mut u8, length: usize, allow: i32, flags: i32, file: i32, offset: i64) -> *mut u8;
        fn mprotect(at: *mut u8, length: usize, allow: i32) -> i32;
    }

    const PAGE: usize = 4_096;
    const READ_AND_WRITE: i32 = 3;
    const NOTHING: i32 = 0;
    const PRIVATE_AND_EMPTY: i32 = 0x22;

    /// Memory of `size` bytes, a multiple of a page, with a forbidden page behind it. It is never given back.
    pub fn with_a_forbidden_page(size: usize) -> *mut u8 {
        unsafe {
            let start = mmap(std::ptr::null_mut(), size + PAGE, READ_AND_WRITE, PRIVATE_AND_EMPTY, -1, 0);
            assert!(start as isize > 0, "no memory for an edge");
            assert_eq!(mprotect(start.add(size), PAGE, NOTHING), 0, "the page can be forbidden");
            start
        }
    }
}

#[cfg(not(all(target_os = "linux", target_arch = "x86_64")))]
mod pages {
    /// Elsewhere the memory has no forbidden page.
    pub fn with_a_forbidden_page(size: usize) -> *mut u8 {
        vec![0u64; size / 8].leak().as_mut_ptr().cast()
    }
}

const SIZE: usize = 2 << 20;

/// A place for one buffer, used again and again.
pub struct Edge {
    start: *mut u8,
}

impl Edge {
    pub fn new() -> Edge {
        Edge { start: pages::with_a_forbidden_page(SIZE) }
    }

    /// A copy of the content that ends at the edge.
    pub fn hold<T: Copy>(&mut self, content: &[T]) -> &mut [T] {
        let bytes = std::mem::size_of_val(content);
        assert!(bytes <= SIZE, "a buffer too large for an edge");
        unsafe {
            let at = self.start.add(SIZE - bytes).cast::<T>();
            std::ptr::copy_nonoverlapping(content.as_ptr(), at, content.len());
            std::slice::from_raw_parts_mut(at, content.len())
        }
    }
}
