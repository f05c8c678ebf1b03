//! An earlier library, taken from a shared object because its functions have the names of the
//! present one's.
#![allow(unsafe_code)]

use std::ffi::{c_char, c_int, c_void, CStr, CString};
use std::fs::canonicalize;
use std::mem::transmute;

use crate::Answer;

#[repr(C)]
struct Reply {
    number: u32,
    first: u32,
    second: u32,
}

type Judge = unsafe extern "C" fn(*const u32, usize, *const u32, usize, *mut u32, usize) -> Reply;
type Find = unsafe extern "C" fn(*const u32, usize, *mut u32, usize) -> Reply;

unsafe extern "C" {
    fn dlopen(path: *const c_char, mode: c_int) -> *mut c_void;
    fn dlsym(object: *mut c_void, name: *const c_char) -> *mut c_void;
}

/// Every reference is resolved when the object is opened.
const RTLD_NOW: c_int = 2;

/// The two functions that are timed.
#[derive(Clone, Copy)]
pub struct Earlier {
    judge: Judge,
    find: Find,
}

impl Earlier {
    /// The library of this shared object; it is never closed.
    pub fn open(path: &str) -> Earlier {
        // A name without a directory would be looked for where the system keeps its libraries.
        let whole = canonicalize(path).unwrap_or_else(|error| panic!("{path}: {error}"));
        let name = CString::new(whole.into_os_string().into_encoded_bytes()).expect("no NUL");
        // SAFETY: the name is a string that ends in NUL. Opening runs what the object runs at its
        // start, and a library of ours runs nothing.
        let object = unsafe { dlopen(name.as_ptr(), RTLD_NOW) };
        assert!(!object.is_null(), "{path} cannot be opened as a shared object");
        let function = |name: &CStr| {
            // SAFETY: the object is open, and the name is a string that ends in NUL.
            let function = unsafe { dlsym(object, name.as_ptr()) };
            assert!(!function.is_null(), "{path} has no {name:?}");
            function
        };
        // SAFETY: ever since there were functions of these names, they have had these types.
        unsafe {
            Earlier {
                judge: transmute::<*mut c_void, Judge>(function(c"telhavina_judge")),
                find: transmute::<*mut c_void, Find>(function(c"telhavina_find")),
            }
        }
    }

    pub fn judge(&self, table: &[u32], order: &[u32], figures: &mut [u32]) -> Answer {
        // SAFETY: as for the present library (src/ffi.rs): each pointer and length come from one
        // slice, and only `figures` is written.
        answer(unsafe {
            (self.judge)(
                table.as_ptr(),
                table.len(),
                order.as_ptr(),
                order.len(),
                figures.as_mut_ptr(),
                figures.len(),
            )
        })
    }

    pub fn find(&self, table: &[u32], order: &mut [u32]) -> Answer {
        // SAFETY: as for judging; only `order` is written.
        answer(unsafe { (self.find)(table.as_ptr(), table.len(), order.as_mut_ptr(), order.len()) })
    }
}

fn answer(reply: Reply) -> Answer {
    [reply.number, reply.first, reply.second]
}
