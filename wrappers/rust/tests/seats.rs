//! What each call of a seat answers in each state of a queue.
use msq::seats::{queue, queue_with_limit, Giver, Taker, Value};
use msq::{Kind, Refusal, WornWord};

const KINDS: [Kind; 3] = [Kind::NonBlocking, Kind::TwoLock, Kind::Ring];
const LONG: u64 = 1 << 48;
const TURNS: u32 = 8;
const SEVEN: Result<Option<Value>, Refusal> = Ok(Some(Value { body: 7, from: 1 }));

/// A queue of a kind, with so many nodes and a limit, by one giver and one taker.
fn open(kind: Kind, nodes: u32, limit: u64) -> Result<(Giver, Taker), Refusal> {
    let (mut givers, mut takers) = queue_with_limit(kind, nodes, limit, 1, 1)?;
    Ok((givers.remove(0), takers.remove(0)))
}

#[test]
fn calls_answer() {
    for kind in KINDS {
        assert_eq!(open(kind, 1, LONG).err(), Some(Refusal::BadSize));
        assert_eq!(open(kind, 32, 0).err(), Some(Refusal::BadSize));
        let (mut giver, mut taker) = open(kind, 32, LONG).unwrap();
        assert_eq!(giver.try_push(7, TURNS), Ok(()));
        assert_eq!(taker.try_pop(TURNS), SEVEN);
        assert_eq!(taker.try_pop(TURNS), Ok(None));
        assert_eq!(giver.try_push(7, TURNS), Ok(()));
        assert_eq!(giver.try_shut(0), Err(Refusal::BadSize));
        assert_eq!(giver.try_shut(TURNS), Ok(()));
        assert_eq!(giver.try_shut(TURNS), Err(Refusal::Closed));
        assert_eq!(giver.try_push(7, TURNS), Err(Refusal::Closed));
        assert_eq!(taker.try_pop(TURNS), SEVEN);
        assert_eq!(taker.try_pop(TURNS), Err(Refusal::Closed));

        let (mut giver, _taker) = open(kind, 2, LONG).unwrap();
        while giver.try_push(7, TURNS).is_ok() {}
        assert_eq!(giver.try_push(7, TURNS), Err(Refusal::NoNode));
    }
}

#[test]
fn there_are_as_many_seats_as_asked_for() {
    for kind in KINDS {
        let (mut givers, mut takers) = queue(kind, 64, 3, 2).unwrap();
        assert_eq!((givers.len(), takers.len()), (3, 2));
        for (giver, from) in givers.iter_mut().zip(1..) {
            assert_eq!(giver.try_push(7, TURNS), Ok(()));
            assert_eq!(takers[1].try_pop(TURNS), Ok(Some(Value { body: 7, from })));
        }
        assert_eq!(queue(kind, 1, 3, 2).err(), Some(Refusal::BadSize));
    }
}

#[test]
fn numbers_have_their_range() {
    for kind in KINDS {
        let (mut giver, mut taker) = open(kind, 32, LONG).unwrap();
        let most = (1 << 48) - 1;
        assert_eq!(giver.try_push(most + 1, TURNS), Err(Refusal::BadSize));
        assert_eq!(giver.try_push(u64::MAX, TURNS), Err(Refusal::BadSize));
        assert_eq!(taker.try_pop(TURNS), Ok(None), "none was pushed");
        assert_eq!(giver.try_push(most, TURNS), Ok(()));
        assert_eq!(taker.try_pop(TURNS), Ok(Some(Value { body: most, from: 1 })));
    }
}

#[test]
fn a_queue_wears_out() {
    for kind in KINDS {
        let (mut giver, mut taker) = open(kind, 8, 3).unwrap();
        let refusal = loop {
            let sent = giver.try_push(42, TURNS);
            if let Err(refusal) = sent.and_then(|()| taker.try_pop(TURNS)) {
                break refusal;
            }
        };
        assert!(matches!(refusal, Refusal::WornOut(_)), "{kind:?}: {refusal}");
    }
}

/// At the limit 1 each word is raised once.
#[test]
fn each_word_wears_out() {
    let worn = |word| Err(Refusal::WornOut(word));
    for kind in KINDS {
        let (mut giver, mut taker) = open(kind, 2, 1).unwrap();
        while giver.try_push(7, TURNS).is_ok() {
            assert_eq!(taker.try_pop(TURNS), SEVEN);
        }
        if kind == Kind::Ring {
            assert_eq!(giver.try_push(7, TURNS), worn(WornWord::Tail));
            continue;
        }
        assert_eq!(giver.try_push(7, TURNS), worn(WornWord::Free));
        let (mut giver, mut taker) = open(kind, 16, 1).unwrap();
        assert_eq!([giver.try_push(7, TURNS), giver.try_push(7, TURNS)], [Ok(()); 2]);
        if kind == Kind::NonBlocking {
            assert_eq!(giver.try_push(7, TURNS), worn(WornWord::Tail));
            assert_eq!(giver.try_shut(TURNS), worn(WornWord::Tail));
        }
        assert_eq!(taker.try_pop(TURNS), SEVEN);
        let end = if kind == Kind::TwoLock { WornWord::Head } else { WornWord::Tail };
        assert_eq!(taker.try_pop(TURNS), Err(Refusal::WornOut(end)));
    }
}

/// At the limit 2 the free list is worn with nothing in it, so that the queue counts as full.
#[test]
fn a_worn_head_is_told() {
    let (mut giver, mut taker) = open(Kind::TwoLock, 4, 2).unwrap();
    for _ in 0..3 {
        assert_eq!(giver.try_push(7, TURNS), Ok(()));
    }
    assert_eq!(taker.try_pop(TURNS), SEVEN);
    assert_eq!(giver.try_push(7, TURNS), Ok(()));
    assert_eq!(taker.try_pop(TURNS), SEVEN);
    assert_eq!(giver.try_push(7, TURNS), Err(Refusal::NoNode));
    assert_eq!(taker.try_pop(TURNS), Err(Refusal::WornOut(WornWord::Head)));
    assert_eq!(giver.try_push(7, TURNS), Err(Refusal::NoNode));
}

#[test]
fn a_call_has_a_turn_at_least() {
    for kind in KINDS {
        assert_eq!(queue_with_limit(kind, 8, LONG, 0, 0).err(), Some(Refusal::BadSize), "no seat");
        let (mut giver, mut taker) = open(kind, 8, LONG).unwrap();
        assert_eq!(giver.try_push(7, 0), Err(Refusal::BadSize));
        assert_eq!(taker.try_pop(0), Err(Refusal::BadSize));
    }
}
