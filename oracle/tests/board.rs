//! What the exported calls promise beyond the rules: rows that are no lawful send, and buffers of other lengths. The last
//! test shows that a byte that holds nothing and is not 0 is noticed.
#![cfg(board)]

use oracle::board::{raw, stray_byte};
use oracle::port::POOL;
use std::ops::Range;

const SEND: [u64; 10] = [9, 1, 1, 3, 1, 1, 1, 64, 1, 5];

fn fresh(len: usize) -> Vec<u8> {
    let mut state = vec![0xee; len];
    assert_eq!(raw::new(&mut state, 8, 64, 0), 0);
    state
}

#[test]
fn unlawful_rows() {
    let mut state = fresh(raw::STATE);
    let before = state.clone();
    for (word, value) in [(0, 256), (1, 256), (1, 128), (2, 3), (3, 256), (3, 8), (0, u64::MAX), (2, u64::MAX)] {
        let mut send = SEND;
        send[word] = value;
        let mut row = [7; 13];
        assert_eq!(raw::start_send(&mut state, &send, &mut row), 1, "word {word} is {value}");
        assert_eq!((row, &state), ([7; 13], &before));
    }
}

fn sent(send: &[u64; 10]) -> (Vec<u8>, [u64; 13]) {
    let (mut state, mut row) = (fresh(raw::STATE), [7; 13]);
    assert_eq!(raw::start_send(&mut state, send, &mut row), 0);
    (state, row)
}

#[test]
fn the_tag_of_a_fresh_one_is_not_looked_at() {
    let with_tag = |tag| sent(&[9, 1, 0, tag, 1, 1, 1, 64, 1, 5]);
    assert_eq!(with_tag(0).1[4], 1);
    for tag in [7, 8, 255, 256, u64::MAX] {
        assert_eq!(with_tag(tag), with_tag(0), "tag {tag}");
    }
}

#[test]
fn any_number_but_0_is_yes() {
    let mut send = SEND;
    for word in [4, 5, 6, 8] {
        send[word] = u64::MAX - 1;
    }
    assert_eq!(sent(&send), sent(&SEND));
}

#[test]
fn buffers_of_other_lengths() {
    let mut short = vec![0xee; raw::STATE - 1];
    assert_eq!(raw::new(&mut short, 8, 64, 0), 2);
    assert_eq!(raw::new(&mut [], 8, 64, 0), 2);
    assert_eq!(raw::new(&mut [], 8, 4, 0), 3);
    assert!(short.iter().all(|b| *b == 0xee));
    let long = fresh(raw::STATE + 9);
    assert_eq!(long[..raw::STATE], fresh(raw::STATE)[..]);
    assert_eq!(long[raw::STATE..], [0xee; 9]);
    assert!(raw::is_kept(&long) && raw::is_kept(&long[..raw::STATE]));
    assert!(!raw::is_kept(&long[..raw::STATE - 1]) && !raw::is_kept(&[]) && !raw::is_kept(&[0xee; raw::STATE]));
}

/// Flow place 0 has neither cookie nor expiry, place 1 has both; slot 0 collects, slot 1 has its handle out and a cookie.
fn busy() -> Vec<u8> {
    let (mut state, mut pool, mut two) = (fresh(raw::STATE), vec![0; POOL], [0; 2]);
    for send in [[9, 1, 1, 1, 0, 1, 0, 0, 0, 0], [10, 1, 1, 7, 1, 1, 0, 0, 1, 0xfefe]] {
        assert_eq!(raw::start_send(&mut state, &send, &mut [0; 13]), 0);
    }
    assert_eq!(raw::receive(&mut state, &mut pool, &[1, 8, 20, 0x89, 1, 2], &mut two), 0);
    assert_eq!(raw::receive(&mut state, &mut pool, &[1, 8, 21, 0xc9, 1, 2], &mut two), 0);
    assert_eq!((two, raw::set_cookie(&mut state, 1, 1, Some(5))), ([1, 1], 0));
    state
}

/// What lies between fields, absent cookies, stamps and issue numbers, free places and empty slots, but for their first byte.
fn gaps() -> Vec<usize> {
    let head = [3..4];
    let flows = [3..4, 5..6, 7..8, 8..28, 28..32, 35..36, 37..38, 39..40, 60..64];
    let free = (2..64).map(|place| 32 * place + 1..32 * place + 32);
    let slots = [13..16, 24..32, 32..40, 53..56, 81..120, 121..160];
    let moved = |by: usize| move |part: Range<usize>| part.start + by..part.end + by;
    let flows = flows.into_iter().chain(free).map(moved(40));
    head.into_iter().chain(flows).chain(slots.map(moved(40 + 32 * 64))).flatten().collect()
}

#[test]
fn a_byte_that_holds_nothing_is_looked_at() {
    let (state, gaps) = (busy(), gaps());
    assert_eq!(stray_byte(&state), None);
    for at in &gaps {
        let mut doctored = state.clone();
        doctored[*at] = 1;
        assert_eq!(stray_byte(&doctored), Some(*at));
    }
    // every other byte is in a field, but those that tell what there is: without them what they tell of is stray
    let tells = [40, 72, 76, 78, 2088, 2128, 2140];
    for at in tells {
        let mut doctored = state.clone();
        doctored[at] = 0;
        assert!(stray_byte(&doctored).is_some(), "byte {at}");
    }
    for at in (0..raw::STATE).filter(|at| state[*at] != 0 && !tells.contains(at)) {
        let mut doctored = state.clone();
        doctored[at] ^= 0x80;
        assert_eq!(stray_byte(&doctored), None, "byte {at}");
    }
}
