//! The calls that the archive exports, as crate `board_c` has them. The comparison in oracle/ takes its declarations from this file, too.

extern "C" {
    pub fn hyphaloom_new(state: *mut u8, state_len: usize, own: u8, mtu: usize, clock: u64) -> u8;
    pub fn hyphaloom_is_kept(state: *const u8, state_len: usize) -> bool;
    pub fn hyphaloom_set_eid(state: *mut u8, state_len: usize, eid: u8) -> u8;
    pub fn hyphaloom_eid(state: *const u8, state_len: usize) -> u8;
    pub fn hyphaloom_is_local_dest(state: *const u8, state_len: usize, packet: *const u8, packet_len: usize) -> bool;
    pub fn hyphaloom_start_send(state: *mut u8, state_len: usize, send: *const [u64; 10], fragmenter: *mut [u64; 13]) -> u8;
    pub fn hyphaloom_fragment(
        fragmenter: *mut [u64; 13],
        payload: *const u8,
        payload_len: usize,
        out: *mut u8,
        out_len: usize,
        len: *mut u64,
    ) -> u8;
    pub fn hyphaloom_update(state: *mut u8, state_len: usize, clock: u64, next: *mut [u64; 2]) -> u8;
    pub fn hyphaloom_receive(
        state: *mut u8,
        state_len: usize,
        pool: *mut u8,
        pool_len: usize,
        packet: *const u8,
        packet_len: usize,
        handle: *mut [u64; 2],
    ) -> u8;
    pub fn hyphaloom_get_deferred(state: *mut u8, state_len: usize, source: u8, owner: u8, tag: u8, handle: *mut [u64; 2]);
    pub fn hyphaloom_get_deferred_bycookie(
        state: *mut u8,
        state_len: usize,
        cookies: *const u64,
        cookies_len: usize,
        handle: *mut [u64; 2],
    );
    pub fn hyphaloom_fetch_message(
        state: *const u8,
        state_len: usize,
        pool: *const u8,
        pool_len: usize,
        index: usize,
        issue: u64,
        message: *mut [u64; 10],
    ) -> u8;
    pub fn hyphaloom_finished_receive(state: *mut u8, state_len: usize, index: usize, issue: u64) -> u8;
    pub fn hyphaloom_return_handle(state: *mut u8, state_len: usize, index: usize, issue: u64) -> u8;
    pub fn hyphaloom_set_cookie(state: *mut u8, state_len: usize, index: usize, issue: u64, has_cookie: u8, cookie: u64) -> u8;
    pub fn hyphaloom_cancel_flow(state: *mut u8, state_len: usize, source: u8, tag: u8) -> u8;
    pub fn hyphaloom_free_tags(state: *const u8, state_len: usize, peer: u8) -> u8;
}
