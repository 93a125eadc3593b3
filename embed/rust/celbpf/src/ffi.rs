//! The functions of the library, as `celbpf.h` declares them. No pointer may be null; a slice's never is.
use std::ffi::c_void;

#[repr(C)]
pub struct Place {
    pub held: *mut c_void,
}

pub const DONE: u32 = 0;
pub const DENIED: u32 = 1;

extern "C" {
    pub fn celbpf_gate_new_checked(
        place: *mut Place,
        policy: *const u8,
        policy_len: usize,
        room: *mut u8,
        room_len: usize,
        len: *mut usize,
    ) -> u32;
    pub fn celbpf_gate_new_wide_checked(
        place: *mut Place,
        policy: *const u8,
        policy_len: usize,
        room: *mut u8,
        room_len: usize,
        len: *mut usize,
    ) -> u32;
    pub fn celbpf_gate_decide_within_checked(
        place: *mut Place,
        review: *const u8,
        review_len: usize,
        ns: *const u8,
        ns_len: usize,
        params: *const u8,
        params_len: usize,
        steps: u64,
        reads: u64,
        room: *mut u8,
        room_len: usize,
        len: *mut usize,
    ) -> u32;
    pub fn celbpf_gate_free(place: *mut Place);
    pub fn celbpf_review_within_checked(
        policy: *const u8,
        policy_len: usize,
        review: *const u8,
        review_len: usize,
        ns: *const u8,
        ns_len: usize,
        params: *const u8,
        params_len: usize,
        steps: u64,
        reads: u64,
        room: *mut u8,
        room_len: usize,
        len: *mut usize,
    ) -> u32;
    pub fn celbpf_review_wide_checked(
        policy: *const u8,
        policy_len: usize,
        review: *const u8,
        review_len: usize,
        ns: *const u8,
        ns_len: usize,
        params: *const u8,
        params_len: usize,
        steps: u64,
        reads: u64,
        room: *mut u8,
        room_len: usize,
        len: *mut usize,
    ) -> u32;
    pub fn celbpf_compile_checked(policy: *const u8, policy_len: usize, room: *mut u8, room_len: usize, len: *mut usize) -> u32;
}
