//! A version of the proved library that is loaded while the benchmark runs (bench/versions), at the place where it was
//! linked. Its table is so many words here: each version lays it out in its own way.

use std::ffi::{c_char, c_int, c_void, CString};
use std::path::Path;

/// What a message gets. The answer stands first in every version; behind it is room for whatever else one says.
#[repr(C)]
pub struct Reply {
    pub answer: u8,
    _others: [usize; 7],
}

#[repr(C)]
struct Restored {
    answer: u8,
    _dropped: [usize; 2],
}

/// Slots and addresses of closed calls.
pub type Row = [u32; 400];

type Handle = unsafe extern "C" fn(*mut u32, *const u8, usize, *mut u8, usize, u32, u32, *mut Row) -> Reply;
type Restore = unsafe extern "C" fn(*mut u32, u32, *const u8, usize, *const u8, usize) -> Restored;

/// More words than the table of any version has.
pub const MOST_WORDS: usize = 8_192;

pub struct Loaded {
    handle: Handle,
    restore: Restore,
}

extern "C" {
    fn dlopen(name: *const c_char, flags: c_int) -> *mut c_void;
    fn dlsym(library: *mut c_void, name: *const c_char) -> *mut c_void;
}

/// Every symbol is looked up at once, and none is seen by other libraries.
const RTLD_NOW: c_int = 2;

impl Loaded {
    pub fn from(file: &Path) -> Loaded {
        let name = CString::new(file.to_str().expect("a path in UTF-8")).expect("a path without zeros");
        // SAFETY: the name ends in a zero. The library runs nothing when it is loaded, and is never unloaded.
        let library = unsafe { dlopen(name.as_ptr(), RTLD_NOW) };
        assert!(!library.is_null(), "{} cannot be loaded", file.display());
        let symbol = |name: &str| {
            let name = CString::new(name).expect("a name without zeros");
            // SAFETY: the library is loaded, and the name ends in a zero.
            let found = unsafe { dlsym(library, name.as_ptr()) };
            assert!(!found.is_null(), "{}: no {name:?}", file.display());
            found
        };
        let (handle, restore) = (symbol("chaffmoor_handle"), symbol("chaffmoor_read_checkpoint"));
        // SAFETY: these are the functions' types in every version since tables have a time, but for what stands behind
        // the answer: it is returned through memory, for which `Reply` has room.
        unsafe {
            Loaded {
                handle: std::mem::transmute::<*mut c_void, Handle>(handle),
                restore: std::mem::transmute::<*mut c_void, Restore>(restore),
            }
        }
    }

    /// The table becomes what the checkpoint says under the roster.
    pub fn restore(&self, table: &mut [u32], roster: &[u8], checkpoint: &[u8]) {
        assert!(table.len() >= MOST_WORDS);
        let (bytes, length) = (checkpoint.as_ptr(), checkpoint.len());
        // SAFETY: all pointers are good for their lengths and do not overlap; the library keeps none.
        let read = unsafe { (self.restore)(table.as_mut_ptr(), 0, roster.as_ptr(), roster.len(), bytes, length) };
        assert_eq!(read.answer, 0, "the checkpoint is refused");
    }

    /// A message's answer, at time 0 with period 0.
    pub fn answer(&self, table: &mut [u32], message: &[u8], reply: &mut [u8; 128], row: &mut Row) -> u8 {
        assert!(table.len() >= MOST_WORDS);
        let (bytes, length) = (message.as_ptr(), message.len());
        // SAFETY: as above.
        unsafe { (self.handle)(table.as_mut_ptr(), bytes, length, reply.as_mut_ptr(), 128, 0, 0, row).answer }
    }
}
