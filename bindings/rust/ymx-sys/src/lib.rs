//! The declarations of ymx.h, which says what each call does.
#![no_std]
#![allow(non_camel_case_types)]

use core::ffi::c_void;

/// The C types of x86-64 Linux, for which the library is. Older compilers have them outside of core alone.
pub type c_char = i8;
pub type c_int = i32;

/// A session. It may go to another thread, and one at a time uses it.
#[repr(C)]
pub struct ymx_session {
    _inside: [u8; 0],
    _not_shared: core::marker::PhantomData<*mut u8>,
}

/// A note of the streams that bytes have touched. It may go to another thread, and one at a time uses it.
#[repr(C)]
pub struct ymx_touched {
    _inside: [u8; 0],
    _not_shared: core::marker::PhantomData<*mut u8>,
}

pub const YMX_CLIENT: c_int = 0;
pub const YMX_SERVER: c_int = 1;
pub const YMX_E_NO_STREAM: i64 = -1;
pub const YMX_E_FINISHED: i64 = -2;
pub const YMX_E_RESET: i64 = -3;
pub const YMX_E_LOST: i64 = -4;
pub const YMX_E_CLOSED: i64 = -5;
pub const YMX_E_PEER_AWAY: i64 = -6;
pub const YMX_E_OPENS_PENDING: i64 = -7;
pub const YMX_E_TOO_MANY: i64 = -8;
pub const YMX_E_EXHAUSTED: i64 = -9;
pub const YMX_E_PINGS_PENDING: i64 = -10;
pub const YMX_E_NO_MEMORY: i64 = -11;
pub const YMX_WAIT: i64 = -12;
pub const YMX_E_BAD_WINDOW: i64 = -13;
pub const YMX_E_BAD_FIRST: i64 = -14;
pub const YMX_E_NULL: i64 = -15;
pub const YMX_E_BAD_ROLE: i64 = -16;
pub const YMX_VERSION_MAJOR: u32 = 0;
pub const YMX_VERSION_MINOR: u32 = 3;
pub const YMX_VERSION_PATCH: u32 = 0;
pub const YMX_VERSION_NUM: u32 = YMX_VERSION_MAJOR * 10_000 + YMX_VERSION_MINOR * 100 + YMX_VERSION_PATCH;
pub const YMX_LEAST_WINDOW: u32 = 262_144;
pub const YMX_WIDEST_WINDOW: u32 = 16_777_216;
pub const YMX_MOST_TOUCHED: usize = 1024;
pub const YMX_MOST_STREAMS: usize = 1024;
pub const YMX_MOST_OPENS_PENDING: usize = 256;
pub const YMX_MOST_OFFERED: usize = 256;
pub const YMX_MOST_PINGS_PENDING: usize = 16;
pub const YMX_MOST_ANSWERS: usize = 1024;
pub const YMX_RUNNING: i64 = 0;
pub const YMX_LOST: i64 = 1;
pub const YMX_CLOSED: i64 = 2;
pub const YMX_BROKEN: i64 = 100;
pub const YMX_NEXT_FIRST: i64 = 1;
pub const YMX_NEXT_RESET: i64 = 2;
pub const YMX_NEXT_CREDIT: i64 = 3;
pub const YMX_NEXT_DATA: i64 = 4;
pub const YMX_NEXT_END: i64 = 5;
pub const YMX_NEXT_REST: i64 = 8;

pub const YMX_FAULT_BAD_VERSION: i64 = 1;
pub const YMX_FAULT_UNKNOWN_TYPE: i64 = 2;
pub const YMX_FAULT_BAD_SYN: i64 = 3;
pub const YMX_FAULT_STREAM_IN_USE: i64 = 4;
pub const YMX_FAULT_WINDOW_EXCEEDED: i64 = 5;
pub const YMX_FAULT_CREDIT_OVERFLOW: i64 = 6;
pub const YMX_FAULT_BAD_GO_AWAY_CODE: i64 = 7;
pub const YMX_FAULT_PEER_SAW_PROTOCOL_ERROR: i64 = 8;
pub const YMX_FAULT_PEER_SAW_INTERNAL_ERROR: i64 = 9;

extern "C" {
    pub fn ymx_new(role: c_int, window: u32, first: u32, out: *mut *mut ymx_session) -> i64;
    pub fn ymx_free(session: *mut ymx_session);
    pub fn ymx_feed(session: *mut ymx_session, bytes: *const c_void, len: usize) -> i64;
    pub fn ymx_feed_touching(
        session: *mut ymx_session,
        bytes: *const c_void,
        len: usize,
        touched: *mut ymx_touched,
    ) -> i64;
    pub fn ymx_feed_end(session: *mut ymx_session) -> i64;
    pub fn ymx_emit(session: *mut ymx_session, buffer: *mut c_void, len: usize) -> i64;
    pub fn ymx_due(session: *const ymx_session) -> i64;
    pub fn ymx_open(session: *mut ymx_session) -> i64;
    pub fn ymx_accept(session: *mut ymx_session) -> i64;
    pub fn ymx_opens_left(session: *const ymx_session) -> i64;
    pub fn ymx_is_peer_away(session: *const ymx_session) -> i64;
    pub fn ymx_offered_count(session: *const ymx_session) -> i64;
    pub fn ymx_write(session: *mut ymx_session, id: u32, bytes: *const c_void, len: usize) -> i64;
    pub fn ymx_read(session: *mut ymx_session, id: u32, buffer: *mut c_void, len: usize) -> i64;
    pub fn ymx_room(session: *const ymx_session, id: u32) -> i64;
    pub fn ymx_is_at_end(session: *const ymx_session, id: u32) -> i64;
    pub fn ymx_has_ended(session: *const ymx_session, id: u32) -> i64;
    pub fn ymx_unsent(session: *const ymx_session, id: u32) -> i64;
    pub fn ymx_unsent_total(session: *const ymx_session) -> i64;
    pub fn ymx_next_of(session: *const ymx_session, id: u32) -> i64;
    pub fn ymx_is_acknowledged(session: *const ymx_session, id: u32) -> i64;
    pub fn ymx_is_reset(session: *const ymx_session, id: u32) -> i64;
    pub fn ymx_streams(session: *const ymx_session, ids: *mut u32, len: usize) -> i64;
    pub fn ymx_unread(session: *const ymx_session, id: u32, bytes: *mut *const c_void) -> i64;
    pub fn ymx_unread_count(session: *const ymx_session, id: u32) -> i64;
    pub fn ymx_consume(session: *mut ymx_session, id: u32, count: usize) -> i64;
    pub fn ymx_finish(session: *mut ymx_session, id: u32) -> i64;
    pub fn ymx_reset(session: *mut ymx_session, id: u32) -> i64;
    pub fn ymx_forget(session: *mut ymx_session, id: u32) -> i64;
    pub fn ymx_release(session: *mut ymx_session, id: u32) -> i64;
    pub fn ymx_shrink(session: *mut ymx_session, id: u32) -> i64;
    pub fn ymx_shrink_spare(session: *mut ymx_session) -> i64;
    pub fn ymx_write_through(
        session: *mut ymx_session,
        id: u32,
        bytes: *const c_void,
        len: usize,
        buffer: *mut c_void,
        size: usize,
    ) -> i64;
    pub fn ymx_feed_to_payload(
        session: *mut ymx_session,
        bytes: *const c_void,
        len: usize,
        touched: *mut ymx_touched,
    ) -> i64;
    pub fn ymx_passing(session: *const ymx_session, id: *mut u32) -> i64;
    pub fn ymx_pass(session: *mut ymx_session, bytes: *const c_void, len: usize) -> i64;
    pub fn ymx_ping(session: *mut ymx_session) -> i64;
    pub fn ymx_ponged(session: *mut ymx_session, number: u32) -> i64;
    pub fn ymx_go_away(session: *mut ymx_session) -> i64;
    pub fn ymx_close(session: *mut ymx_session) -> i64;
    pub fn ymx_status(session: *const ymx_session) -> i64;
    pub fn ymx_touched_new(out: *mut *mut ymx_touched) -> i64;
    pub fn ymx_touched_free(touched: *mut ymx_touched);
    pub fn ymx_touched_ids(touched: *const ymx_touched, ids: *mut u32, len: usize) -> i64;
    pub fn ymx_touched_is_all(touched: *const ymx_touched) -> i64;
    pub fn ymx_touched_has_pong(touched: *const ymx_touched) -> i64;
    pub fn ymx_touched_clear(touched: *mut ymx_touched) -> i64;
    pub fn ymx_error_name(code: i64) -> *const c_char;
    pub fn ymx_fault_name(fault: i64) -> *const c_char;
    pub fn ymx_refusal_text(code: i64) -> *const c_char;
    pub fn ymx_fault_text(fault: i64) -> *const c_char;
    pub fn ymx_version() -> *const c_char;
}
