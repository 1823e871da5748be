//! The calls of the library for C.

use crate::refusal::{done, Refusal};
use crate::{Counts, Match};
use std::ffi::c_void;
use std::ptr;

/// Nothing, or an automaton, alone or shared with other handles.
#[repr(C)]
pub(crate) struct Handle {
    opaque: *mut c_void,
}

// The library proves that a handle may move to another thread. Each call takes it by `&mut`.
unsafe impl Send for Handle {}

impl Handle {
    pub(crate) fn empty() -> Handle {
        Handle {
            opaque: ptr::null_mut(),
        }
    }

    /// Another handle of the same automaton.
    pub(crate) fn share(&mut self) -> Result<Handle, Refusal> {
        let mut other = Handle::empty();
        done(unsafe { daachorse_share(self, &mut other) })?;
        Ok(other)
    }
}

impl Drop for Handle {
    fn drop(&mut self) {
        unsafe { daachorse_free(self) };
    }
}

/// The options of a build.
#[repr(C)]
pub(crate) struct Options {
    pub kind: u32,
    pub no_prefilter: u32,
    pub ascii_case_insensitive: u32,
    pub unit: u32,
    pub spare: [u32; 4],
}

/// Where a search goes on: at first at the beginning of its haystack.
#[repr(C)]
#[derive(Clone, Copy, Default)]
pub(crate) struct Place {
    at: usize,
    after: bool,
    over: bool,
}

pub(crate) type Search =
    unsafe extern "C" fn(*mut Handle, *const u8, usize, *mut Match, usize, *mut usize) -> u32;

extern "C" {
    pub(crate) fn daachorse_build_with(
        handle: *mut Handle,
        options: *const Options,
        bytes: *const u8,
        bytes_len: usize,
        ends: *const usize,
        ends_len: usize,
        values: *const u32,
        values_len: usize,
    ) -> u32;
    pub(crate) fn daachorse_kind(handle: *mut Handle, kind: *mut u32, folds: *mut bool) -> u32;
    pub(crate) fn daachorse_count(handle: *mut Handle, counts: *mut Counts) -> u32;
    pub(crate) fn daachorse_find_on(
        handle: *mut Handle,
        haystack: *const u8,
        len: usize,
        place: *mut Place,
        out: *mut Match,
        room: usize,
        written: *mut usize,
    ) -> u32;
    pub(crate) fn daachorse_find_overlapping(
        handle: *mut Handle,
        haystack: *const u8,
        len: usize,
        out: *mut Match,
        room: usize,
        written: *mut usize,
    ) -> u32;
    pub(crate) fn daachorse_find_overlapping_no_suffix(
        handle: *mut Handle,
        haystack: *const u8,
        len: usize,
        out: *mut Match,
        room: usize,
        written: *mut usize,
    ) -> u32;
    pub(crate) fn daachorse_get(
        handle: *mut Handle,
        text: *const u8,
        len: usize,
        out: *mut Match,
        room: usize,
        written: *mut usize,
    ) -> u32;
    pub(crate) fn daachorse_common_prefixes(
        handle: *mut Handle,
        text: *const u8,
        len: usize,
        out: *mut Match,
        room: usize,
        written: *mut usize,
    ) -> u32;
    pub(crate) fn daachorse_is_match(
        handle: *mut Handle,
        haystack: *const u8,
        len: usize,
        found: *mut bool,
    ) -> u32;
    pub(crate) fn daachorse_replace(
        handle: *mut Handle,
        haystack: *const u8,
        len: usize,
        bytes: *const u8,
        bytes_len: usize,
        ends: *const usize,
        ends_len: usize,
        out: *mut u8,
        room: usize,
        size: *mut usize,
    ) -> u32;
    pub(crate) fn daachorse_begin(handle: *mut Handle, search: u32) -> u32;
    pub(crate) fn daachorse_consume(
        handle: *mut Handle,
        bytes: *const u8,
        len: usize,
        out: *mut Match,
        room: usize,
        taken: *mut usize,
        written: *mut usize,
    ) -> u32;
    pub(crate) fn daachorse_end(handle: *mut Handle) -> u32;
    pub(crate) fn daachorse_write(
        handle: *mut Handle,
        out: *mut u8,
        room: usize,
        size: *mut usize,
    ) -> u32;
    pub(crate) fn daachorse_list(
        handle: *mut Handle,
        bytes: *mut u8,
        bytes_len: usize,
        ends: *mut usize,
        ends_len: usize,
        values: *mut u32,
        values_len: usize,
        size: *mut usize,
        count: *mut usize,
    ) -> u32;
    pub(crate) fn daachorse_share(handle: *mut Handle, other: *mut Handle) -> u32;
    pub(crate) fn daachorse_accelerate(handle: *mut Handle, other: *mut Handle) -> u32;
    pub(crate) fn daachorse_read_with(
        handle: *mut Handle,
        unit: u32,
        bytes: *const u8,
        len: usize,
        taken: *mut usize,
    ) -> u32;
    pub(crate) fn daachorse_free(handle: *mut Handle);
}
