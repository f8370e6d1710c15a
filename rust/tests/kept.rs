//! A stack saved and restored goes on as it would have, and bytes that are no stack's are refused.
//!
//! What bytes are a stack's is decided here a second time, from the layout: crates/state/specs/Layout.antt, Head.antt, Slot.antt
//! and crates/flows/specs/Codec.antt.

mod common;

use common::{ask, fresh, send_under, take, whole, POOL};
use hyphaloom::config::{FLOWS, MAX_PAYLOAD, STATE_BYTES};
use hyphaloom::*;

type Bytes = [u8; STATE_BYTES];

const HEAD: usize = 40;
const FLOW: usize = 32;
const SLOT: usize = 40;
const SLOTS_AT: usize = HEAD + FLOW * FLOWS;

// ---- the second decision

/// The number in so many bytes, the lowest first.
fn number(block: &[u8], at: usize, width: usize) -> u64 {
    block[at..at + width].iter().rev().fold(0, |n, byte| n << 8 | u64::from(*byte))
}

/// Tag counter, sequence, and a planned check at most 100 ms ahead of the clock.
fn is_head(b: &[u8]) -> bool {
    let (clock, planned) = (number(b, 8, 8), number(b, 16, 8));
    number(b, 1, 1) < 8 && number(b, 2, 2) < 4 && planned.saturating_sub(clock) <= 100
}

/// Used or not, tag, cookie (0 where there is none), expiry (0 where there is none) with a counter of 4 bytes.
fn is_flow(b: &[u8]) -> bool {
    let (cookie, expiry) = (number(b, 4, 2), number(b, 6, 2));
    let (value, clock, counter) = (number(b, 8, 8), number(b, 16, 8), number(b, 24, 8));
    let lawful = number(b, 0, 1) < 2 && number(b, 2, 2) < 8 && cookie < 2 && expiry < 2 && counter < 1 << 32;
    lawful && (cookie == 1 || value == 0) && (expiry == 1 || (clock, counter) == (0, 0))
}

/// State, TO and tag, sequence, length, cookie (0 where there is none), issue (0 where no handle is out).
fn is_slot(b: &[u8]) -> bool {
    let (state, cookie, value, issue) = (number(b, 0, 1), number(b, 12, 4), number(b, 24, 8), number(b, 32, 8));
    let lawful = state < 4 && number(b, 3, 1) < 16 && number(b, 5, 1) < 4 && number(b, 6, 2) <= MAX_PAYLOAD as u64 && cookie < 2;
    lawful && (cookie == 1 || value == 0) && (state == 3 || issue == 0)
}

fn is_stack(bytes: &Bytes) -> bool {
    let (head, rest) = bytes.split_at(HEAD);
    let (flows, slots) = rest.split_at(SLOTS_AT - HEAD);
    is_head(head) && flows.chunks_exact(FLOW).all(is_flow) && slots.chunks_exact(SLOT).all(is_slot)
}

// ---- stacks and bytes

/// A stack in the middle of things. Slot 0 collects, slot 1 has a reply whose handle is out, slot 2 a message given back with
/// a cookie, slot 3 collects a long one; flows stand with and without expiry and cookie; two updates are over.
fn busy(pool: &mut Pool) -> (Stack, ReceiveHandle) {
    let mut stack = fresh(64);
    ask(&mut stack, 9, None).unwrap();
    send_under(&mut stack, 10, Tag::Owned(TagValue(7)), false, Some(AppCookie(u64::MAX))).unwrap();
    send_under(&mut stack, 11, Tag::Owned(TagValue(2)), true, Some(AppCookie(5))).unwrap();
    assert_eq!(stack.update(1000), Ok((100, false)));
    assert_eq!(take(&mut stack, pool, &[&[1, 8, 20, 0x8D, 0x85][..], &[7; 9]].concat()), Ok(None));
    let out = take(&mut stack, pool, &[1, 8, 11, 0xC2, 1, 0xAA]).unwrap().expect("the reply under tag 2");
    let back = take(&mut stack, pool, &whole(21, b"kept")).unwrap().expect("a message");
    stack.set_cookie(&back, Some(AppCookie(6))).unwrap();
    stack.return_handle(back).unwrap();
    assert_eq!(take(&mut stack, pool, &[&[1, 8, 22, 0xAF, 1][..], &[3; MAX_PAYLOAD]].concat()), Ok(None));
    assert_eq!(stack.update(1040), Ok((60, false)));
    (stack, out)
}

fn restored(stack: &Stack) -> Stack {
    Stack::from_bytes(*stack.as_bytes()).expect("a stack's bytes")
}

/// What a stack answers from there on, call by call, with all its bytes after each.
fn story(mut stack: Stack, pool: &mut Pool, out: &ReceiveHandle) -> Vec<(String, Bytes)> {
    let mut told = Vec::new();
    let mut tell = |stack: &Stack, answer: String| told.push((answer, *stack.as_bytes()));
    let answer = format!("{:?} {:?}", stack.eid(), [9, 10, 11].map(|peer| stack.free_tags(Eid(peer))));
    tell(&stack, answer);
    let answer = format!("{:?}", stack.fetch_message(pool, out).map(|m| (m.source, m.cookie, m.payload.to_vec())));
    tell(&stack, answer);
    for packet in [&[1, 8, 20, 0x5D, 8][..], &[1, 8, 22, 0x7F], &[1, 8, 9, 0xC1, 1], &[1, 8, 10, 0xC7, 1], &[1, 8, 23, 0xCF, 1]] {
        let answer = format!("{:?}", stack.receive(pool, packet).map(|m| m.map(|(m, h)| (m.cookie, m.payload.to_vec(), h))));
        tell(&stack, answer);
    }
    let handle = stack.get_deferred_bycookie(&[AppCookie(6)]).expect("the message given back");
    let answer = format!("{handle:?} {:?}", stack.fetch_message(pool, &handle).map(|m| m.payload.to_vec()));
    tell(&stack, answer);
    let answer = format!("{:?} {:?}", ask(&mut stack, 9, None), stack.cancel_flow(Eid(10), TagValue(7)));
    tell(&stack, answer);
    for clock in [1039, 1100, 7001, 7101] {
        let answer = format!("{:?}", stack.update(clock));
        tell(&stack, answer);
    }
    told
}

/// Both decisions on these bytes; they must agree.
fn decide(bytes: &Bytes, what: std::fmt::Arguments<'_>) -> bool {
    let stack = Stack::from_bytes(*bytes);
    assert_eq!(stack.is_ok(), is_stack(bytes), "{what}");
    if let Ok(stack) = &stack {
        assert!(stack.is_kept() && stack.as_bytes() == bytes, "{what}");
    }
    stack.is_ok()
}

/// The decision on a state with one byte changed; every other byte is as it was.
fn with(bytes: &Bytes, at: usize, value: u8) -> bool {
    let mut bytes = *bytes;
    bytes[at] = value;
    decide(&bytes, format_args!("byte {at} is {value:#04X}"))
}

// ---- saved and restored

#[test]
fn a_fresh_stack_comes_back() {
    for (own, mtu, clock) in [(8, 255, 0), (0, 5, u64::MAX), (255, usize::MAX, 12345)] {
        let stack = Stack::new(Eid(own), mtu, clock).unwrap();
        assert!(stack.is_kept());
        assert!(restored(&stack).as_bytes() == stack.as_bytes());
        assert_eq!(restored(&stack).eid(), Eid(own));
    }
}

#[test]
fn a_busy_stack_goes_on_alike() {
    let mut pool = POOL;
    let (stack, out) = busy(&mut pool);
    assert!(stack.is_kept());
    let mut other = pool;
    let again = story(restored(&stack), &mut other, &out);
    let told = story(stack, &mut pool, &out);
    assert_eq!(told.len(), again.len());
    for (place, (was, is)) in told.iter().zip(&again).enumerate() {
        assert!(was == is, "call {place}: {}, restored {}", was.0, is.0);
        assert!(is_stack(&is.1), "call {place}");
    }
    assert!(pool == other);
    assert!(told[1].0.contains("170") && told[7].0.contains("[107, 101, 112, 116]"), "{told:?}");
}

#[test]
fn a_refusal_has_a_text() {
    assert_eq!(NotKept.to_string(), "not the bytes of a stack");
}

// ---- changed bytes

#[test]
fn one_byte_that_matters() {
    let mut pool = POOL;
    let bytes = *busy(&mut pool).0.as_bytes();
    let slot = |index: usize| SLOTS_AT + SLOT * index;
    let lengths: Vec<_> = (0..4).map(|i| number(&bytes, slot(i) + 6, 2)).collect();
    assert_eq!(lengths, [9, 1, 4, 1032]);
    let places = [
        ("length 9 becomes 1,033", slot(0) + 7, 4, false),
        ("length 1,032 becomes 1,033", slot(3) + 6, 9, false),
        ("length 1 becomes 1,025", slot(1) + 7, 4, true),
        ("length 1,032 becomes 1,031", slot(3) + 6, 7, true),
        ("tag counter 7", 1, 7, true),
        ("tag counter 8", 1, 8, false),
        ("sequence 0", 2, 0, true),
        ("sequence 4", 2, 4, false),
        ("the byte behind it", 3, 1, false),
        ("a slot's sequence 3", slot(0) + 5, 3, true),
        ("a slot's sequence 4", slot(0) + 5, 4, false),
        ("a slot's state 4", slot(0), 4, false),
        ("a slot's issue without a handle", slot(0) + 32, 1, false),
        ("a handle taken away, its issue left", slot(1), 2, false),
        ("a slot's cookie taken away, its value left", slot(2) + 12, 0, false),
        ("TO and tag 15", slot(0) + 3, 15, true),
        ("TO and tag 16", slot(0) + 3, 16, false),
        ("a flow's tag 7", HEAD + 2, 7, true),
        ("a flow's tag 8", HEAD + 2, 8, false),
        ("a flow used twice", HEAD, 2, false),
        ("a flow's expiry taken away, its clock and counter left", HEAD + 6, 0, false),
        ("a flow's cookie without a yes", HEAD + 8, 1, false),
    ];
    for (what, at, value, kept) in places {
        assert_ne!(bytes[at], value, "{what}: it is so already");
        assert_eq!(with(&bytes, at, value), kept, "{what}");
    }
    let reserved = [(HEAD, vec![3, 5, 7, 28, 29, 30, 31]), (slot(0), vec![13, 14, 15])];
    for (block, places) in reserved {
        for at in places {
            assert!(!with(&bytes, block + at, 1), "byte {at} of the block at {block}");
        }
    }
}

#[test]
fn a_check_is_planned_at_most_100_ahead() {
    let bytes = *fresh(255).as_bytes();
    assert!(with(&bytes, 16, 100));
    assert!(!with(&bytes, 16, 101));
    assert!(!with(&bytes, 23, 0x80));
    let mut last = *Stack::new(Eid(8), 255, u64::MAX - 99).unwrap().as_bytes();
    last[16..24].fill(0xFF);
    assert!(decide(&last, format_args!("the last clock of all, 99 ahead")));
    assert!(with(&last, 8, 0x9B), "100 ahead");
    assert!(!with(&last, 8, 0x9A), "101 ahead");
}

#[test]
fn every_byte_in_turn() {
    let mut pool = POOL;
    let (mut kept, mut refused) = (0, 0);
    for bytes in [*fresh(255).as_bytes(), *busy(&mut pool).0.as_bytes()] {
        for at in 0..STATE_BYTES {
            for value in [0xFF, 0, 1, 2, 3, 4, 7, 8, 16] {
                *(if with(&bytes, at, value) { &mut kept } else { &mut refused }) += 1;
            }
        }
    }
    assert!(kept > 5_000 && refused > 5_000, "{kept} kept, {refused} refused");
}

// ---- random bytes

/// Marsaglia's xorshift of 64 bits.
struct Random(u64);

impl Random {
    fn below(&mut self, end: usize) -> usize {
        self.0 ^= self.0 << 13;
        self.0 ^= self.0 >> 7;
        self.0 ^= self.0 << 17;
        (self.0 >> 16) as usize % end
    }

    /// A byte, often one at the edge of some field.
    fn byte(&mut self) -> u8 {
        let edges = [0, 1, 2, 3, 4, 7, 8, 9, 15, 16];
        edges.get(self.below(20)).copied().unwrap_or(self.below(256) as u8)
    }

    /// A place of the state, in one of three as often in the head or the slots.
    fn place(&mut self) -> usize {
        [self.below(STATE_BYTES), self.below(HEAD), SLOTS_AT + self.below(STATE_BYTES - SLOTS_AT)][self.below(3)]
    }
}

/// Some calls with arguments at random; any of them may be refused.
fn stir(stack: &mut Stack, pool: &mut Pool, random: &mut Random) {
    let clock = number(stack.as_bytes(), 8, 8);
    let _ = ask(stack, random.byte(), Some(64));
    let packet: Vec<u8> =
        [1, stack.eid().0, random.byte(), random.byte() | 0x80].into_iter().chain([random.byte(); 60]).collect();
    let _ = take(stack, pool, &packet);
    let _ = stack.get_deferred(Eid(random.byte()), Tag::Owned(TagValue(random.byte())));
    let _ = stack.cancel_flow(Eid(random.byte()), TagValue(random.byte()));
    let _ = stack.update(clock.saturating_add(random.below(200) as u64));
}

/// A walk over states at random: bytes change, and stay changed where both decisions call that a state. The calls keep it one.
#[test]
fn random_states() {
    let (mut random, mut pool) = (Random(0x9E37_79B9_7F4A_7C15), POOL);
    let mut bytes = *busy(&mut pool).0.as_bytes();
    let (mut kept, mut refused) = (0, 0);
    for step in 0..30_000 {
        let mut next = bytes;
        for _ in 0..=random.below(3) {
            next[random.place()] = random.byte();
        }
        if decide(&next, format_args!("step {step}")) {
            bytes = next;
            kept += 1;
        } else {
            refused += 1;
        }
        if step % 8 == 0 {
            let mut stack = Stack::from_bytes(bytes).expect("it was a stack's");
            stir(&mut stack, &mut pool, &mut random);
            assert!(stack.is_kept() && is_stack(stack.as_bytes()), "step {step}");
            bytes = *stack.as_bytes();
        }
    }
    assert!(kept > 5_000 && refused > 5_000, "{kept} kept, {refused} refused");
}

/// Random bytes are refused.
#[test]
fn noise() {
    let mut random = Random(1);
    for step in 0..1000 {
        let mut bytes = [0; STATE_BYTES];
        bytes.fill_with(|| random.below(256) as u8);
        assert!(!decide(&bytes, format_args!("step {step}")));
    }
}

/// Cleared memory is a stack of its own kind: own EID 0, MTU 0, and no send succeeds.
#[test]
fn zeros() {
    let bytes = [0; STATE_BYTES];
    assert!(decide(&bytes, format_args!("zeros")));
    let mut stack = Stack::from_bytes(bytes).unwrap();
    assert_eq!((stack.eid(), stack.free_tags(Eid(9)), stack.update(1000)), (Eid(0), 8, Ok((100, false))));
    assert_eq!(ask(&mut stack, 9, None).err(), Some(Error::BadArgument));
    assert_eq!(ask(&mut stack, 9, Some(255)).err(), Some(Error::BadArgument));
    assert_eq!(send_under(&mut stack, 9, Tag::Unowned(TagValue(1)), false, None).err(), Some(Error::BadArgument));
}
