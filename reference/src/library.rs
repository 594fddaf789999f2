//! The verified library through its C interface, behind the feature `library`.
//!
//! `library` needs `calstore_check`; each of the features `library-get` to `library-create` adds
//! the call of that name, so that an archive with only some of the calls can be linked.

#![allow(unsafe_code)]

use crate::calls::Answer;
use crate::compare::programs::{CreateCall, Program, PutCall, ReadCall, RemoveCall};

/// The calls of the linked library.
pub const LIBRARY: Program = Program {
    name: "library",
    check,
    get: GET,
    next: NEXT,
    put: PUT,
    remove: REMOVE,
    create: CREATE,
};

/// `struct calstore_answer`.
#[repr(C)]
struct CAnswer {
    number: u32,
    page: u32,
    length: u64,
    pages: u64,
    tables: u64,
    keys: u64,
    free: u64,
}

impl From<CAnswer> for Answer {
    /// The same answer; its page has to be 0, since no answer of document 01 has one.
    fn from(answer: CAnswer) -> Answer {
        assert_eq!(answer.page, 0, "the page of an answer");
        Answer {
            number: answer.number,
            length: answer.length,
            pages: answer.pages,
            tables: answer.tables,
            keys: answer.keys,
            free: answer.free,
        }
    }
}

extern "C" {
    fn calstore_check(
        image: *const u8,
        image_len: usize,
        scratch: *mut u8,
        scratch_len: usize,
    ) -> CAnswer;
}

/// Checks an image.
pub fn check(image: &[u8], scratch: &mut [u8]) -> Answer {
    // SAFETY: each pointer is that of a slice, with its length.
    let answer = unsafe {
        calstore_check(
            image.as_ptr(),
            image.len(),
            scratch.as_mut_ptr(),
            scratch.len(),
        )
    };
    answer.into()
}

/// Makes the wrapper of a call, and the constant that says whether the library has it. The slices
/// are given as pointer and length, in the order of the arguments.
macro_rules! call {
    (
        $feature:literal, $constant:ident: $type:ty, $function:ident, $symbol:ident,
        ($($argument:ident: $slice:ty, $pointer:ty, $take:ident);*)
    ) => {
        #[cfg(feature = $feature)]
        extern "C" {
            fn $symbol($($argument: $pointer, _: usize),*) -> CAnswer;
        }

        #[cfg(feature = $feature)]
        fn $function($($argument: $slice),*) -> Answer {
            // SAFETY: each pointer is that of a slice, with its length.
            let answer = unsafe { $symbol($($argument.$take(), $argument.len()),*) };
            answer.into()
        }

        #[cfg(feature = $feature)]
        const $constant: Option<$type> = Some($function);
        #[cfg(not(feature = $feature))]
        const $constant: Option<$type> = None;
    };
}

call!(
    "library-get", GET: ReadCall, get, calstore_get,
    (image: &[u8], *const u8, as_ptr; scratch: &mut [u8], *mut u8, as_mut_ptr;
     name: &[u8], *const u8, as_ptr; key: &[u8], *const u8, as_ptr;
     answer: &mut [u8], *mut u8, as_mut_ptr)
);
call!(
    "library-next", NEXT: ReadCall, next, calstore_next,
    (image: &[u8], *const u8, as_ptr; scratch: &mut [u8], *mut u8, as_mut_ptr;
     name: &[u8], *const u8, as_ptr; key: &[u8], *const u8, as_ptr;
     answer: &mut [u8], *mut u8, as_mut_ptr)
);
call!(
    "library-put", PUT: PutCall, put, calstore_put,
    (image: &mut [u8], *mut u8, as_mut_ptr; scratch: &mut [u8], *mut u8, as_mut_ptr;
     name: &[u8], *const u8, as_ptr; key: &[u8], *const u8, as_ptr;
     value: &[u8], *const u8, as_ptr)
);
call!(
    "library-remove", REMOVE: RemoveCall, remove, calstore_remove,
    (image: &mut [u8], *mut u8, as_mut_ptr; scratch: &mut [u8], *mut u8, as_mut_ptr;
     name: &[u8], *const u8, as_ptr; key: &[u8], *const u8, as_ptr)
);
call!(
    "library-create", CREATE: CreateCall, create, calstore_create,
    (image: &mut [u8], *mut u8, as_mut_ptr; scratch: &mut [u8], *mut u8, as_mut_ptr;
     name: &[u8], *const u8, as_ptr)
);
