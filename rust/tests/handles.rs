//! Handles: stale ones are refused and touch nothing; messages are kept, found again and expire.

mod common;

use common::{ask, fresh, send_under, take, whole, POOL};
use hyphaloom::Error::BadArgument;
use hyphaloom::*;

const OWNED_1: Tag = Tag::Owned(TagValue(1));

/// The same handle once more, as firmware that keeps the numbers has it.
fn again(handle: &ReceiveHandle) -> ReceiveHandle {
    ReceiveHandle::from_numbers(handle.index(), handle.issue())
}

/// All four calls under a handle refuse it.
fn assert_refused(stack: &mut Stack, handle: &ReceiveHandle) {
    assert_eq!(stack.fetch_message(&POOL, handle), Err(BadArgument), "{handle:?}");
    assert_eq!(stack.set_cookie(handle, Some(AppCookie(5))), Err(BadArgument), "{handle:?}");
    assert_eq!(stack.return_handle(again(handle)), Err(BadArgument), "{handle:?}");
    assert_eq!(stack.finished_receive(again(handle)), Err(BadArgument), "{handle:?}");
}

#[test]
fn a_stale_handle_leaves_the_next_message_alone() {
    let (mut stack, mut pool) = (fresh(255), POOL);
    let old = take(&mut stack, &mut pool, &whole(9, b"old")).unwrap().expect("a message");
    stack.finished_receive(again(&old)).unwrap();
    assert_refused(&mut stack, &old);

    let new = take(&mut stack, &mut pool, &whole(10, b"new")).unwrap().expect("a message");
    assert_eq!((old.index(), new.index()), (0, 0), "the same slot");
    assert_eq!((old.issue(), new.issue()), (1, 2), "another number");
    assert_refused(&mut stack, &old);

    let message = stack.fetch_message(&pool, &new).expect("it stands");
    assert_eq!((message.source, message.payload, message.cookie), (Eid(10), &b"new"[..], None));
    stack.finished_receive(new).unwrap();
}

#[test]
fn a_handle_given_back_is_stale_though_its_message_stands() {
    let (mut stack, mut pool) = (fresh(255), POOL);
    let old = take(&mut stack, &mut pool, &whole(9, b"kept")).unwrap().expect("a message");
    stack.return_handle(again(&old)).unwrap();
    assert_refused(&mut stack, &old);
    let new = stack.get_deferred(Eid(9), OWNED_1).expect("it is kept");
    assert_refused(&mut stack, &old);
    assert_eq!(stack.fetch_message(&pool, &new).unwrap().payload, b"kept");
}

#[test]
fn numbers_that_no_handle_has() {
    let (mut stack, mut pool) = (fresh(255), POOL);
    assert_eq!(take(&mut stack, &mut pool, &[1, 8, 11, 0x89, 1]), Ok(None));
    let _handle = take(&mut stack, &mut pool, &whole(9, &[1])).unwrap().expect("a message in slot 1");
    for (index, issue) in [(0, 0), (0, 1), (1, 0), (1, 2), (2, 1), (4, 1), (usize::MAX, u64::MAX)] {
        assert_refused(&mut stack, &ReceiveHandle::from_numbers(index, issue));
    }
}

#[test]
fn a_message_whose_handle_is_out_is_passed_over() {
    let (mut stack, mut pool) = (fresh(255), POOL);
    for body in [b"one", b"two"] {
        let handle = take(&mut stack, &mut pool, &whole(9, body)).unwrap().expect("a message");
        stack.return_handle(handle).unwrap();
    }
    let found = [(); 3].map(|()| stack.get_deferred(Eid(9), OWNED_1));
    let bodies = found.each_ref().map(|h| h.as_ref().map(|h| stack.fetch_message(&pool, h).unwrap().payload));
    assert_eq!(bodies, [Some(&b"one"[..]), Some(&b"two"[..]), None], "the earliest first");
}

#[test]
fn lookups_match_source_owner_and_tag() {
    let (mut stack, mut pool) = (fresh(255), POOL);
    let handle = take(&mut stack, &mut pool, &whole(9, &[1])).unwrap().expect("a message");
    stack.return_handle(handle).unwrap();
    let others = [(10, OWNED_1), (9, Tag::Unowned(TagValue(1))), (9, Tag::Owned(TagValue(2))), (9, Tag::Owned(TagValue(9)))];
    for (source, tag) in others {
        assert_eq!(stack.get_deferred(Eid(source), tag), None, "{source} {tag:?}");
    }
    assert!(stack.get_deferred(Eid(9), OWNED_1).is_some());
}

#[test]
fn lookups_by_cookie() {
    let (mut stack, mut pool) = (fresh(255), POOL);
    for (source, cookie) in [(9, Some(AppCookie(70))), (10, Some(AppCookie(u64::MAX))), (11, None)] {
        let handle = take(&mut stack, &mut pool, &whole(source, &[])).unwrap().expect("a message");
        stack.set_cookie(&handle, cookie).unwrap();
        stack.return_handle(handle).unwrap();
    }
    assert_eq!(stack.get_deferred_bycookie(&[]), None);
    assert_eq!(stack.get_deferred_bycookie(&[AppCookie(0), AppCookie(71)]), None);
    let mut found = |list: &[AppCookie]| {
        let handle = stack.get_deferred_bycookie(list)?;
        stack.fetch_message(&pool, &handle).ok().map(|m| (m.source, m.cookie))
    };
    assert_eq!(found(&[AppCookie(u64::MAX)]), Some((Eid(10), Some(AppCookie(u64::MAX)))));
    assert_eq!(found(&[AppCookie(1), AppCookie(u64::MAX), AppCookie(70)]), Some((Eid(9), Some(AppCookie(70)))));
}

#[test]
fn a_cookie_can_be_taken_away() {
    let (mut stack, mut pool) = (fresh(255), POOL);
    send_under(&mut stack, 9, OWNED_1, true, Some(AppCookie(7))).unwrap();
    let handle = take(&mut stack, &mut pool, &[1, 8, 9, 0xC1, 1]).unwrap().expect("a reply");
    assert_eq!(stack.fetch_message(&pool, &handle).unwrap().cookie, Some(AppCookie(7)));
    stack.set_cookie(&handle, None).unwrap();
    assert_eq!(stack.fetch_message(&pool, &handle).unwrap().cookie, None);
}

#[test]
fn a_handle_out_holds_its_message_past_the_timeout() {
    let (mut stack, mut pool) = (fresh(255), POOL);
    let handle = take(&mut stack, &mut pool, &whole(9, b"held")).unwrap().expect("a message");
    assert_eq!(stack.update(60_000), Ok((100, false)));
    assert_eq!(stack.fetch_message(&pool, &handle).unwrap().payload, b"held");
    stack.return_handle(handle).unwrap();
    assert_eq!(stack.update(60_100), Ok((100, true)), "given back, it has its old age");
    assert_eq!(stack.get_deferred(Eid(9), OWNED_1), None);
}

#[test]
fn flows_expire_after_6000() {
    let mut stack = fresh(255);
    ask(&mut stack, 9, None).unwrap();
    send_under(&mut stack, 9, Tag::Owned(TagValue(5)), false, None).unwrap();
    assert_eq!(stack.update(6000), Ok((0, false)));
    assert_eq!(stack.free_tags(Eid(9)), 6);
    assert_eq!(stack.update(6001), Ok((100, true)));
    assert_eq!(stack.free_tags(Eid(9)), 7, "the one without expiry stays");
}
