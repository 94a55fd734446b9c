//! Which message a receive takes, and which receive a message comes to.

use datatypes::Buffer;
use match_queues::*;
use std::alloc::Global;
use vocabulary::{BasicType, Endpoint, Source};

/// A message of rank 0 at this incarnation.
fn message(alloc: Global, incarnation: u16, tag: u32) -> Message {
    Message {
        sender: Endpoint {
            rank: 0,
            incarnation,
        },
        context: 0,
        tag,
        body: Body::Whole(Buffer::new(alloc, BasicType::Int32)),
    }
}

fn receive(request: usize, source: Source, tag: Option<u32>) -> PostedReceive {
    PostedReceive {
        request,
        context: 0,
        source,
        tag,
    }
}

/// What becomes of a message, for which room is made.
fn arrive(queues: &mut Queues, message: Message) -> Option<Arrival> {
    let Ok(()) = queues.reserve_message() else {
        return None;
    };
    Some(queues.arrive(message))
}

/// What a receive finds, for which room is made.
fn post(queues: &mut Queues, receive: PostedReceive) -> Option<Option<Message>> {
    let Ok(()) = queues.reserve_receive() else {
        return None;
    };
    let found = queues.place_for(&receive);
    Some(queues.post(receive, found))
}

/// Whether a message is kept.
fn is_kept(alloc: Global, queues: &mut Queues, tag: u32) -> bool {
    match arrive(queues, message(alloc, 0, tag)) {
        Some(Arrival::Kept) => true,
        _ => false,
    }
}

/// The request of the receive that a message comes to.
fn matched(alloc: Global, queues: &mut Queues, tag: u32) -> Option<usize> {
    match arrive(queues, message(alloc, 0, tag)) {
        Some(Arrival::Matched(receive, _message)) => Some(receive.request),
        _ => None,
    }
}

/// Whether a receive finds no message, and waits.
fn is_posted(queues: &mut Queues, receive: PostedReceive) -> bool {
    match post(queues, receive) {
        Some(None) => true,
        _ => false,
    }
}

/// The tag of the message that a receive finds.
fn found(queues: &mut Queues, receive: PostedReceive) -> Option<u32> {
    match post(queues, receive) {
        Some(Some(message)) => Some(message.tag),
        _ => None,
    }
}

/// Whether messages with tags 5, 6 and 6 are kept, and which are found by the tag 6 and then by any tag.
fn find_oldest(alloc: Global, queues: &mut Queues) -> ([bool; 3], Option<u32>, Option<u32>) {
    let kept = [
        is_kept(alloc, queues, 5),
        is_kept(alloc, queues, 6),
        is_kept(alloc, queues, 6),
    ];
    let by_tag = found(queues, receive(0, Source::Any, Some(6)));
    (kept, by_tag, found(queues, receive(1, Source::Any, None)))
}

#[test]
fn takes_the_oldest(rt: HostRuntime) {
    let mut queues = Queues::new(rt.alloc());
    assert_eq!(rt;
        find_oldest(rt.alloc(), &mut queues),
        ([true; 3], Some(6), Some(5))
    );
}

fn match_first_posted(alloc: Global, queues: &mut Queues) -> ([bool; 2], Option<usize>) {
    let posted = [
        is_posted(queues, receive(3, Source::Any, None)),
        is_posted(queues, receive(4, Source::Any, None)),
    ];
    (posted, matched(alloc, queues, 1))
}

#[test]
fn the_receive_posted_first_gets_the_message(rt: HostRuntime) {
    let mut queues = Queues::new(rt.alloc());
    assert_eq!(rt;
        match_first_posted(rt.alloc(), &mut queues),
        ([true; 2], Some(3))
    );
}

/// Whether just these requests are of receives that name rank 0.
fn are_named(alloc: Global, queues: &Queues, requests: &[usize]) -> bool {
    match queues.keys_naming(alloc, 0) {
        Ok(keys) => keys.as_slice() == requests,
        Err(_) => false,
    }
}

/// The request of the receive that the first message of incarnation 1 of rank 0 comes to.
fn matched_anew(alloc: Global, queues: &mut Queues, tag: u32) -> Option<usize> {
    queues.drop_from(0, 1);
    match arrive(queues, message(alloc, 1, tag)) {
        Some(Arrival::Matched(receive, _message)) => Some(receive.request),
        _ => None,
    }
}

/// Whether a receive from rank 0 and one from any wait and a message is kept, whether the first one alone names rank 0,
/// which one a message of a later incarnation comes to, and whether the former message is gone.
fn learn(alloc: Global, queues: &mut Queues) -> ([bool; 3], bool, Option<usize>, bool) {
    let before = [
        is_posted(queues, receive(3, Source::Rank(0), Some(9))),
        is_posted(queues, receive(4, Source::Any, Some(9))),
        is_kept(alloc, queues, 1),
    ];
    let named = are_named(alloc, queues, &[3]);
    let matched = matched_anew(alloc, queues, 9);
    let is_gone = is_posted(queues, receive(5, Source::Any, None));
    queues.drop_from(0, 2);
    (before, named, matched, is_gone)
}

#[test]
fn what_is_of_former_incarnations_goes(rt: HostRuntime) {
    let mut queues = Queues::new(rt.alloc());
    assert_eq!(rt;
        learn(rt.alloc(), &mut queues),
        ([true; 3], true, Some(4), true)
    );
}

/// Whether a receive waits and is then cancelled, once, and whether a message that it accepts is then kept, and comes
/// to the receive that was posted behind it.
fn cancel(alloc: Global, queues: &mut Queues) -> ([bool; 4], Option<usize>) {
    let posted = [
        is_posted(queues, receive(3, Source::Any, None)),
        is_posted(queues, receive(4, Source::Any, None)),
    ];
    let cancelled = [queues.cancel(3), queues.cancel(3)];
    let steps = [posted[0], posted[1], cancelled[0], cancelled[1]];
    (steps, matched(alloc, queues, 1))
}

#[test]
fn a_cancelled_receive_gets_nothing(rt: HostRuntime) {
    let mut queues = Queues::new(rt.alloc());
    assert_eq!(rt;
        cancel(rt.alloc(), &mut queues),
        ([true, true, true, false], Some(4))
    );
}

fn keep_many(alloc: Global, queues: &mut Queues, count: u32) -> bool {
    for tag in 0..count {
        if !is_kept(alloc, queues, tag) {
            return false;
        }
    }
    true
}

fn take_many(queues: &mut Queues, count: u32) -> bool {
    for tag in 0..count {
        if found(queues, receive(0, Source::Any, None)) != Some(tag) {
            return false;
        }
    }
    true
}

#[test]
fn many_unexpected_messages_are_taken_in_order(rt: HostRuntime) {
    let mut queues = Queues::new(rt.alloc());
    assert!(rt; keep_many(rt.alloc(), &mut queues, 40_000));
    assert!(rt; take_many(&mut queues, 40_000));
}

#[test]
fn number_of_want_of_memory(rt: HostRuntime) {
    assert_eq!(rt; OutOfMemory {}.number(), 14);
}

/// A message of rank 0 whose two elements are announced.
fn announced(tag: u32) -> Message {
    Message {
        sender: Endpoint {
            rank: 0,
            incarnation: 0,
        },
        context: 0,
        tag,
        body: Body::Announced(Announcement {
            transfer: 0,
            basic: BasicType::Uint64,
            count: 2,
        }),
    }
}

/// Of a receive from rank 0 and one from any rank behind it: the requests of those that a message would come to, as
/// they stand and without those that name rank 0.
fn would_receive(queues: &mut Queues) -> ([bool; 2], Option<usize>, Option<usize>) {
    let posted = [
        is_posted(queues, receive(3, Source::Rank(0), None)),
        is_posted(queues, receive(4, Source::Any, None)),
    ];
    let message = announced(7);
    let first = queues.receive_for(&message);
    let unnamed = queues.receive_for_unnamed(&message, 0);
    (
        posted,
        first.map(|receive| receive.request),
        unnamed.map(|receive| receive.request),
    )
}

#[test]
fn shows_which_receive_a_message_would_come_to(rt: HostRuntime) {
    let mut queues = Queues::new(rt.alloc());
    assert_eq!(rt; would_receive(&mut queues), ([true; 2], Some(3), Some(4)));
}

/// The type and length of the announced message that a receive would take, which a later whole one of its sender
/// doesn't overtake.
fn would_find(alloc: Global, queues: &mut Queues) -> Option<(BasicType, usize)> {
    let Some(Arrival::Kept) = arrive(queues, announced(7)) else {
        return None;
    };
    if !is_kept(alloc, queues, 7) {
        return None;
    }
    let message = queues.message_for(&receive(1, Source::Any, Some(7)))?;
    Some((message.basic(), message.count()))
}

#[test]
fn shows_which_message_a_receive_would_take(rt: HostRuntime) {
    let mut queues = Queues::new(rt.alloc());
    assert_eq!(rt;
        would_find(rt.alloc(), &mut queues),
        Some((BasicType::Uint64, 2))
    );
}
