//! Memory whose end is also the end of what a program may touch: the page behind it is closed.

use std::cell::RefCell;
use std::ffi::{c_int, c_long, c_void};

extern "C" {
    fn mmap(
        at: *mut c_void,
        bytes: usize,
        access: c_int,
        kind: c_int,
        file: c_int,
        from: i64,
    ) -> *mut c_void;
    fn mprotect(at: *mut c_void, bytes: usize, access: c_int) -> c_int;
    fn munmap(at: *mut c_void, bytes: usize) -> c_int;
    fn sysconf(name: c_int) -> c_long;
}

/// Linux's words for these calls.
const NO_ACCESS: c_int = 0;
const READ_AND_WRITE: c_int = 1 | 2;
const PRIVATE_AND_ANONYMOUS: c_int = 0x02 | 0x20;
const PAGE_SIZE: c_int = 30;

/// The size of this machine's pages.
fn page_bytes() -> usize {
    // Safety: the call only gives a number.
    let bytes = unsafe { sysconf(PAGE_SIZE) };
    usize::try_from(bytes).expect("the page size")
}

/// Open pages of the process's own, with a closed page behind them.
#[derive(Clone, Copy)]
struct Mapping {
    start: *mut c_void,
    open_bytes: usize,
    all_bytes: usize,
}

thread_local! {
    /// Mappings with a single open page that are not in use: to make one takes longer than most
    /// calls.
    static SPARE: RefCell<Vec<Mapping>> = const { RefCell::new(Vec::new()) };
}

impl Mapping {
    /// A mapping whose open pages, all zero, hold at least so many bytes.
    fn new(bytes: usize) -> Mapping {
        let page = page_bytes();
        let open_bytes = bytes.next_multiple_of(page);
        let all_bytes = open_bytes + page;
        // Safety: the kernel chooses the place; only the last page of the mapping is closed.
        let start = unsafe {
            let start = mmap(
                std::ptr::null_mut(),
                all_bytes,
                READ_AND_WRITE,
                PRIVATE_AND_ANONYMOUS,
                -1,
                0,
            );
            assert_ne!(start as isize, -1, "mmap");
            let closed = mprotect(start.byte_add(open_bytes), page, NO_ACCESS);
            assert_eq!(closed, 0, "mprotect");
            start
        };
        Mapping {
            start,
            open_bytes,
            all_bytes,
        }
    }
}

/// Pages with a closed page behind them, from their making to their end used by this value alone.
pub struct Pages(Mapping);

impl Pages {
    /// Pages that hold at least so many bytes: zeros, or what stood there in an earlier use.
    pub fn new(bytes: usize) -> Pages {
        let spare = SPARE.with_borrow_mut(|spare| match spare.last() {
            Some(mapping) if bytes <= mapping.open_bytes => spare.pop(),
            _ => None,
        });
        Pages(spare.unwrap_or_else(|| Mapping::new(bytes)))
    }

    /// The last so many bytes before the closed page.
    pub fn last(&self, bytes: usize) -> *mut c_void {
        assert!(bytes <= self.0.open_bytes);
        // Safety: the place is in the open pages, or their end.
        unsafe { self.0.start.byte_add(self.0.open_bytes - bytes) }
    }
}

impl Drop for Pages {
    fn drop(&mut self) {
        if self.0.all_bytes == 2 * page_bytes() {
            SPARE.with_borrow_mut(|spare| spare.push(self.0));
            return;
        }
        // Safety: the mapping is this value's own, and nothing borrowed from it is left.
        let done = unsafe { munmap(self.0.start, self.0.all_bytes) };
        assert_eq!(done, 0, "munmap");
    }
}
