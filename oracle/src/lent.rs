//! A copy of an area that is lent to the library, with something on both sides that shows a step outside: words of a pattern, or pages
//! that may not be touched at all.

use std::ffi::c_void;

const SIDE: usize = 8;
const MARK: u64 = 0xA5A5_5A5A_C3C3_3C3C;

unsafe extern "C" {
    fn mmap(at: *mut c_void, length: usize, protection: i32, flags: i32, file: i32, offset: i64) -> *mut c_void;
    fn munmap(at: *mut c_void, length: usize) -> i32;
    fn mprotect(at: *mut c_void, length: usize, protection: i32) -> i32;
    fn sysconf(name: i32) -> i64;
}

#[derive(Clone, Copy, Debug, PartialEq, Eq)]
pub enum Fence {
    /// Words of a pattern on both sides, looked at after the call.
    Words,
    /// A page without any right right after the area, and the area's end at its edge.
    PageAfter,
    /// The same before the area.
    PageBefore,
}

enum Place {
    Words(Vec<u64>),
    Pages { base: *mut c_void, bytes: usize, area: *mut u64 },
}

pub struct Lent {
    place: Place,
    len: usize,
}

impl Lent {
    pub fn new(words: &[u64], fence: Fence) -> Self {
        let len = words.len();
        if fence == Fence::Words {
            let mut v = Vec::with_capacity(len + 2 * SIDE);
            v.resize(SIDE, MARK);
            v.extend_from_slice(words);
            v.resize(len + 2 * SIDE, MARK);
            return Self { place: Place::Words(v), len };
        }
        // SAFETY: fresh anonymous pages, of which the middle ones are writable and hold `len` words.
        unsafe {
            let page = sysconf(30) as usize;
            let inner = (len * 8).div_ceil(page).max(1) * page;
            let bytes = inner + 2 * page;
            let base = mmap(std::ptr::null_mut(), bytes, 0, 0x22, -1, 0);
            assert!(base as isize != -1, "no pages");
            let middle = base.cast::<u8>().add(page);
            assert!(mprotect(middle.cast(), inner, 3) == 0);
            let from = if fence == Fence::PageAfter { inner - len * 8 } else { 0 };
            let area = middle.add(from).cast::<u64>();
            std::ptr::copy_nonoverlapping(words.as_ptr(), area, len);
            Self { place: Place::Pages { base, bytes, area }, len }
        }
    }

    pub fn pointer(&mut self) -> *mut u64 {
        match &mut self.place {
            Place::Words(v) => v[SIDE..].as_mut_ptr(),
            Place::Pages { area, .. } => *area,
        }
    }

    pub fn len(&self) -> usize {
        self.len
    }

    pub fn is_empty(&self) -> bool {
        self.len == 0
    }

    pub fn words(&self) -> &[u64] {
        match &self.place {
            Place::Words(v) => &v[SIDE..SIDE + self.len],
            // SAFETY: `len` words stand there for as long as `self` does.
            Place::Pages { area, .. } => unsafe { std::slice::from_raw_parts(*area, self.len) },
        }
    }

    /// Whether the words on both sides are as they were.
    pub fn is_whole(&self) -> bool {
        match &self.place {
            Place::Words(v) => v[..SIDE].iter().chain(&v[SIDE + self.len..]).all(|w| *w == MARK),
            Place::Pages { .. } => true,
        }
    }
}

impl Drop for Lent {
    fn drop(&mut self) {
        if let Place::Pages { base, bytes, .. } = self.place {
            // SAFETY: mapped by `new`.
            unsafe { munmap(base, bytes) };
        }
    }
}
