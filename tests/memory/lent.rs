// A list as it is lent to the library, allocated to the exact byte: on the heap, where valgrind
// watches it, or against a guard, once with its end and once with its beginning.

use crate::heap::Block;
use crate::pages::Pages;
use std::marker::PhantomData;
use std::sync::atomic::{AtomicUsize, Ordering};

enum Room {
    Heap(Block),
    BeforeGuard(Pages),
    AfterGuard(Pages),
}

// Each makes room for so many bytes.
type Way = fn(usize) -> Room;

// The words that the program knows, and the ways that each stands for.
const WAYS: [(&str, &[Way]); 2] = [
    (
        "pages",
        &[
            |bytes| Room::BeforeGuard(Pages::new(bytes)),
            |bytes| Room::AfterGuard(Pages::new(bytes)),
        ],
    ),
    ("heap", &[|bytes| Room::Heap(Block::new(bytes))]),
];

// Which word was chosen, and which of its ways the lists go now.
static CHOSEN: AtomicUsize = AtomicUsize::new(0);
static TURN: AtomicUsize = AtomicUsize::new(0);

fn ways() -> &'static [Way] {
    WAYS[CHOSEN.load(Ordering::Relaxed)].1
}

// False where there is no such word.
pub fn choose(word: &str) -> bool {
    let found = WAYS.iter().position(|way| way.0 == word);
    CHOSEN.store(found.unwrap_or(0), Ordering::Relaxed);
    found.is_some()
}

// What comes of the work, in each way of the chosen word.
pub fn in_every_way<T>(mut work: impl FnMut() -> T) -> Vec<T> {
    let turn = |turn| {
        TURN.store(turn, Ordering::Relaxed);
        work()
    };
    (0..ways().len()).map(turn).collect()
}

pub struct Lent<T> {
    room: Room,
    pub len: usize,
    of: PhantomData<T>,
}

impl<T: Copy> Lent<T> {
    pub fn new(list: &[T]) -> Lent<T> {
        let room = ways()[TURN.load(Ordering::Relaxed)](size_of_val(list));
        let lent = Lent::<T> {
            room,
            len: list.len(),
            of: PhantomData,
        };
        unsafe {
            lent.begin()
                .copy_from_nonoverlapping(list.as_ptr(), list.len())
        };
        lent
    }

    fn begin(&self) -> *mut T {
        let at = match &self.room {
            Room::Heap(block) => block.at(),
            Room::BeforeGuard(pages) => pages.before_guard(self.len * size_of::<T>()),
            Room::AfterGuard(pages) => pages.after_guard(),
        };
        at.cast()
    }

    pub fn at(&mut self) -> *mut T {
        self.begin()
    }

    pub fn list(&self) -> Vec<T> {
        unsafe { std::slice::from_raw_parts(self.begin(), self.len).to_vec() }
    }

    // There is nothing beside the list that could be looked at.
    pub fn edges_kept(&self) -> bool {
        true
    }
}
