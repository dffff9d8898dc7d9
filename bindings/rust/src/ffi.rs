//! The functions of bindings/c/include/yoyoash.h.
use std::ffi::c_void;

/// A store as C has it: zeroed when closed, moved and never copied.
#[repr(C)]
pub struct RawStore {
    pub opaque: [*mut c_void; 2],
}

extern "C" {
    pub fn yoyoash_open_with_seed(
        store: *mut RawStore,
        max_processes: u32,
        max_tables: u32,
        max_objects: u32,
        seed: u64,
    ) -> i32;
    pub fn yoyoash_spawn(store: *mut RawStore, pid: u32) -> i32;
    pub fn yoyoash_exit(store: *mut RawStore, pid: u32) -> i32;
    pub fn yoyoash_call(
        store: *mut RawStore,
        pid: u32,
        text: *const u8,
        text_len: usize,
        out: *mut u8,
        out_size: usize,
        len: *mut usize,
    ) -> i32;
    pub fn yoyoash_reply(store: *mut RawStore, out: *mut u8, out_size: usize, len: *mut usize) -> i32;
    pub fn yoyoash_call_external(
        store: *mut RawStore,
        pid: u32,
        call: *const u8,
        call_len: usize,
        out: *mut u8,
        out_size: usize,
        len: *mut usize,
    ) -> i32;
    pub fn yoyoash_reply_external(store: *mut RawStore, out: *mut u8, out_size: usize, len: *mut usize) -> i32;
    pub fn yoyoash_why(store: *mut RawStore, out: *mut u8, out_size: usize, len: *mut usize) -> i32;
    pub fn yoyoash_close(store: *mut RawStore);
}
