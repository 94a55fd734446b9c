//! `Queues` answers what `PlainQueues` answers, event by event.

use match_queues::{Announcement, Arrival, Body, Message, PostedReceive, Queues};
use crate::plain_queues::PlainQueues;
use std::alloc::Global;
use std::test::Fail;
use vocabulary::{BasicType, Endpoint, Source};

/// A message that is known by its number.
fn message(number: u32, context: u64, rank: u16, tag: u32) -> Message {
    Message {
        sender: Endpoint {
            rank,
            incarnation: 0,
        },
        context,
        tag,
        body: Body::Announced(Announcement {
            transfer: number,
            basic: BasicType::Int32,
            count: 1,
        }),
    }
}

/// The number of the message that a receive found, if it found one.
fn number_of(found: Option<Message>) -> Option<u32> {
    match found {
        Some(message) => match message.body {
            Body::Announced(announcement) => Some(announcement.transfer),
            Body::Whole(_) | Body::Own(_) => None,
        },
        None => None,
    }
}

/// The request whose receive took a message, if one did.
fn request_of(arrival: Arrival) -> Option<usize> {
    match arrival {
        Arrival::Matched(receive, _) => Some(receive.request),
        Arrival::Kept => None,
    }
}

/// The number of the message that is found, or nothing where it isn't posted either.
fn post(queues: &mut Queues, receive: PostedReceive) -> Option<Option<u32>> {
    match queues.reserve_receive() {
        Ok(()) => {
            let found = queues.place_for(&receive);
            Some(number_of(queues.post(receive, found)))
        }
        Err(_) => None,
    }
}

fn post_plainly(queues: &mut PlainQueues, receive: PostedReceive) -> Option<Option<u32>> {
    match queues.reserve_receive() {
        Ok(()) => Some(number_of(queues.post(receive))),
        Err(_) => None,
    }
}

/// The request whose receive takes the message, or nothing where the message isn't kept either.
fn arrive(queues: &mut Queues, message: Message) -> Option<Option<usize>> {
    match queues.reserve_message() {
        Ok(()) => Some(request_of(queues.arrive(message))),
        Err(_) => None,
    }
}

fn arrive_plainly(queues: &mut PlainQueues, message: Message) -> Option<Option<usize>> {
    match queues.reserve_message() {
        Ok(()) => Some(request_of(queues.arrive(message))),
        Err(_) => None,
    }
}

/// What an event does, drawn from a number.
fn drawn_receive(seed: u64) -> PostedReceive {
    let source = if (seed >> 16) % 4 == 0 {
        Source::Any
    } else {
        Source::Rank(((seed >> 20) % 3) as u16)
    };
    let tag = if (seed >> 24) % 4 == 0 {
        None
    } else {
        Some(((seed >> 28) % 16) as u32)
    };
    PostedReceive {
        request: ((seed >> 40) % 64) as usize,
        context: (seed >> 8) % 2,
        source,
        tag,
    }
}

fn drawn_message(number: u32, seed: u64) -> Message {
    message(
        number,
        (seed >> 8) % 2,
        ((seed >> 20) % 3) as u16,
        ((seed >> 28) % 16) as u32,
    )
}

fn posts_alike(queues: &mut Queues, plain: &mut PlainQueues, seed: u64) -> bool {
    post(queues, drawn_receive(seed)) == post_plainly(plain, drawn_receive(seed))
}

fn arrives_alike(queues: &mut Queues, plain: &mut PlainQueues, number: u32, seed: u64) -> bool {
    arrive(queues, drawn_message(number, seed))
        == arrive_plainly(plain, drawn_message(number, seed))
}
fn takes_alike(queues: &mut Queues, plain: &mut PlainQueues, seed: u64) -> bool {
    let receive = drawn_receive(seed);
    let taken = match queues.place_for(&receive) {
        Some(place) => Some(queues.take(place)),
        None => None,
    };
    number_of(taken) == number_of(plain.take(&receive))
}

fn cancels_alike(queues: &mut Queues, plain: &mut PlainQueues, seed: u64) -> bool {
    let request = ((seed >> 40) % 64) as usize;
    queues.cancel(request) == plain.cancel(request)
}

fn finds_alike(queues: &Queues, plain: &PlainQueues, number: u32, seed: u64) -> bool {
    let message = drawn_message(number, seed);
    let rank = ((seed >> 44) % 3) as u16;
    let one = queues.receive_for_unnamed(&message, rank);
    let other = plain.receive_for_unnamed(&message, rank);
    match (one, other) {
        (Some(first), Some(second)) => first.request == second.request,
        (None, None) => true,
        (Some(_), None) | (None, Some(_)) => false,
    }
}

/// Drops what names a rank, seldom; only messages of incarnation 0 come, so each of its messages goes.
fn drops_alike(alloc: Global, queues: &mut Queues, plain: &mut PlainQueues, seed: u64) -> bool {
    let rank = ((seed >> 20) % 3) as u16;
    let same = match (
        queues.keys_naming(alloc, rank),
        plain.keys_naming(alloc, rank),
    ) {
        (Ok(one), Ok(other)) => one == other,
        (Ok(_), Err(_)) | (Err(_), Ok(_)) | (Err(_), Err(_)) => false,
    };
    queues.drop_from(rank, 1);
    plain.drop_from(rank, 1);
    same
}

/// One event at both: more receives in one hundred of events, more messages in the next.
fn goes_alike(
    alloc: Global,
    queues: &mut Queues,
    plain: &mut PlainQueues,
    number: u32,
    seed: u64,
) -> bool {
    let kind = seed >> 57;
    let many_receives = (number / 100) % 2 == 0;
    if kind == 0 {
        drops_alike(alloc, queues, plain, seed)
    } else if kind < 20 {
        cancels_alike(queues, plain, seed)
    } else if kind < 30 {
        finds_alike(queues, plain, number, seed)
    } else if kind < 40 {
        takes_alike(queues, plain, seed)
    } else if (kind < 100) == many_receives {
        posts_alike(queues, plain, seed)
    } else {
        arrives_alike(queues, plain, number, seed)
    }
}

fn agree(alloc: Global, events: u32) -> bool {
    let mut queues = Queues::new(alloc);
    let mut plain = PlainQueues::new(alloc);
    let mut seed = 1u64;
    for number in 0..events {
        seed = seed
            .wrapping_mul(6_364_136_223_846_793_005)
            .wrapping_add(1_442_695_040_888_963_407);
        if !goes_alike(alloc, &mut queues, &mut plain, number, seed) {
            return false;
        }
    }
    true
}

#[test]
fn both_forms_answer_alike(rt: HostRuntime) -> Result<(), Fail> {
    assert!(rt; agree(rt.alloc(), 20_000));
    Ok(())
}

/// Posts a receive from any source, then one from the sender, behind so many others of other tags: a message is for the
/// first of the two, and the next one for the second.
fn oldest_of_two(alloc: Global, others: u32) -> (Option<Option<usize>>, Option<Option<usize>>) {
    let mut queues = Queues::new(alloc);
    for tag in 0..others {
        let _ = post(
            &mut queues,
            PostedReceive {
                request: 9,
                context: 0,
                source: Source::Rank(1),
                tag: Some(tag),
            },
        );
    }
    let _ = post(
        &mut queues,
        PostedReceive {
            request: 1,
            context: 0,
            source: Source::Any,
            tag: None,
        },
    );
    let _ = post(
        &mut queues,
        PostedReceive {
            request: 2,
            context: 0,
            source: Source::Rank(1),
            tag: Some(500),
        },
    );
    let first = arrive(&mut queues, message(1, 0, 1, 500));
    let second = arrive(&mut queues, message(2, 0, 1, 500));
    (first, second)
}

#[test]
fn wildcard_that_is_older_goes_first(rt: HostRuntime) -> Result<(), Fail> {
    assert_eq!(rt;
        oldest_of_two(rt.alloc(), 0),
        (Some(Some(1)), Some(Some(2)))
    );
    assert_eq!(rt;
        oldest_of_two(rt.alloc(), 100),
        (Some(Some(1)), Some(Some(2)))
    );
    Ok(())
}
