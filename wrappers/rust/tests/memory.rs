//! What is answered where there is no memory for a queue, in a process that may have 2 GiB of it, and how much a small channel takes.
use msq::channel::{bounded, try_bounded};
use msq::seats;
use msq::{Kind, Queue, Refusal};
use std::ffi::c_int;

const RLIMIT_AS: c_int = 9;
const MOST: u64 = 2 << 30;
/// So many nodes take more.
const NODES: u32 = 4_000_000_000;

#[repr(C)]
struct Limit {
    now: u64,
    most: u64,
}

/// What the allocator has given, by its numbers; the eighth is what is in use.
#[repr(C)]
struct Given([usize; 10]);

extern "C" {
    fn mallinfo2() -> Given;
    fn setrlimit(resource: c_int, limit: *const Limit) -> c_int;
}

// (one test, since what others take would be counted)
#[test]
fn memory_is_taken_as_it_is_said() {
    a_channel_of_one_place_is_small();
    there_is_no_memory_for_so_many_nodes();
}

fn a_channel_of_one_place_is_small() {
    // SAFETY: it only looks.
    let in_use = || unsafe { mallinfo2() }.0[7];
    let before = in_use();
    let channels: Vec<_> = (0..100).map(|_| bounded::<u64>(1)).collect();
    let each = (in_use() - before) / channels.len();
    assert!(each <= 2000, "{each} bytes");
}

fn there_is_no_memory_for_so_many_nodes() {
    let limit = Limit { now: MOST, most: MOST };
    // SAFETY: the limit is there while the call runs.
    assert_eq!(unsafe { setrlimit(RLIMIT_AS, &limit) }, 0);
    let refused = Some(Refusal::Memory);
    for kind in [Kind::NonBlocking, Kind::TwoLock, Kind::Ring] {
        assert_eq!(seats::queue(kind, NODES, 1, 1).err(), refused);
        assert_eq!(Queue::<u64>::of(kind, NODES as usize, 1).err(), refused);
        assert_eq!(Queue::<[u64; 9]>::of(kind, NODES as usize, 1).err(), refused);
    }
    assert_eq!(Queue::<u64>::new(NODES as usize).err(), refused);
    assert_eq!(try_bounded::<u64>(NODES as usize).err(), refused);
    assert!(Queue::<u64>::new(1).is_ok());
}
