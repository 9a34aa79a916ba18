//! Bytes and numbers that are lent between fences or beside pages that nobody may
//! touch.

use std::{fmt, ptr};

use crate::call::{Call, Lent};
use crate::pages::Pages;

/// The bytes of a fence.
const WIDTH: usize = 64;

/// A fence: no two neighbours alike.
const FENCE: [u8; WIDTH] = {
    let mut posts = [0; WIDTH];
    let mut at = 0;
    while at < WIDTH {
        posts[at] = (at as u8).wrapping_mul(37) ^ 0xA5;
        at += 1;
    }
    posts
};

/// What stands in a place for a number before the call.
const EMPTY: u64 = 0x5AA5_3CC3_9669_0FF0;

/// How the slices of a call are lent. Some C programs lend an empty slice by a null
/// pointer, others by the place where the bytes would be.
#[derive(Clone, Copy, Debug, PartialEq, Eq)]
pub enum Way {
    /// Between two fences, at this distance from a word's boundary.
    Fenced(usize),
    /// Right behind a page that nobody may touch; an empty slice by a null pointer.
    BehindPage,
    /// Right before such a page.
    BeforePage,
}

impl fmt::Display for Way {
    fn fmt(&self, f: &mut fmt::Formatter<'_>) -> fmt::Result {
        f.write_str(match self {
            Way::Fenced(_) => "between fences",
            Way::BehindPage => {
                "right behind a page that nobody may touch, an empty slice by a null pointer"
            }
            Way::BeforePage => "right before a page that nobody may touch",
        })
    }
}

/// Where the bytes of a slice are lent.
pub struct Room {
    pages: Pages,
    from: usize,
    length: usize,
    /// The zeros that are lent behind the bytes.
    behind: usize,
    null: bool,
}

impl Room {
    /// A room for so many bytes and the fences about them.
    pub fn new(bytes: usize) -> Self {
        Room {
            pages: Pages::new(bytes + 3 * WIDTH),
            from: 0,
            length: 0,
            behind: 0,
            null: false,
        }
    }

    /// How many bytes find room.
    pub fn size(&self) -> usize {
        self.pages.length() - 3 * WIDTH
    }

    /// Puts bytes where this way has them, with a fence on each side that has room
    /// for one and no zeros.
    pub fn put(&mut self, bytes: &[u8], behind: usize, way: Way) {
        assert!(bytes.len() + behind <= self.size());
        self.length = bytes.len();
        self.behind = behind;
        self.null = bytes.is_empty() && behind == 0 && way == Way::BehindPage;
        self.from = match way {
            Way::Fenced(skew) => WIDTH + skew % WIDTH,
            Way::BehindPage => 0,
            Way::BeforePage => self.pages.length() - bytes.len() - behind,
        };
        let (from, to) = (self.from, self.from + bytes.len());
        let whole = self.pages.bytes_mut();
        whole[from..to].copy_from_slice(bytes);
        if let Some(before) = from.checked_sub(WIDTH) {
            whole[before..from].copy_from_slice(&FENCE);
        }
        if let Some(after) = whole.get_mut(to..to + WIDTH).filter(|_| behind == 0) {
            after.copy_from_slice(&FENCE);
        }
    }

    pub fn lend(&mut self) -> Lent {
        let pointer = if self.null {
            ptr::null_mut()
        } else {
            // SAFETY: within the pages, or at their end.
            unsafe { self.pages.start().add(self.from) }
        };
        Lent {
            pointer,
            length: self.length + self.behind,
        }
    }

    pub fn bytes(&self) -> &[u8] {
        &self.pages.bytes()[self.from..][..self.length]
    }

    /// Whether each fence is as it was.
    pub fn stands(&self) -> bool {
        let whole = self.pages.bytes();
        let (from, to) = (self.from, self.from + self.length);
        let before = from.checked_sub(WIDTH).map(|start| &whole[start..from]);
        let after = whole.get(to..to + WIDTH).filter(|_| self.behind == 0);
        before.into_iter().chain(after).all(|posts| posts == FENCE)
    }
}

/// The rooms of a call's slices, kept for the next call.
#[derive(Default)]
pub struct Rooms(Vec<Room>);

impl Rooms {
    /// The greatest room that is kept.
    const KEPT: usize = 1 << 29;

    /// Puts each slice of a call into a room.
    pub fn put(&mut self, call: &Call, way: Way) -> &mut [Room] {
        while self.0.len() < call.lent.len() {
            self.0.push(Room::new(0));
        }
        let rooms = &mut self.0[..call.lent.len()];
        for (number, (room, bytes)) in rooms.iter_mut().zip(&call.lent).enumerate() {
            let behind = call.behind(number);
            if room.size() < bytes.len() + behind {
                *room = Room::new(bytes.len() + behind);
            }
            room.put(bytes, behind, way);
        }
        rooms
    }

    /// Gives great rooms back.
    pub fn clear(&mut self) {
        self.0.retain(|room| room.size() <= Self::KEPT);
    }
}

/// Places for numbers, a fence before and after each.
pub struct Places {
    row: Vec<u64>,
}

impl Places {
    pub fn new(count: usize) -> Self {
        Places {
            row: (0..2 * count + 1)
                .map(|at| if at % 2 == 1 { EMPTY } else { !EMPTY })
                .collect(),
        }
    }

    pub fn lend(&mut self) -> Vec<*mut u64> {
        let start = self.row.as_mut_ptr();
        let places = (1..self.row.len()).step_by(2);
        // SAFETY: each place is within the row.
        places.map(|at| unsafe { start.add(at) }).collect()
    }

    pub fn numbers(&self) -> Vec<u64> {
        self.row.iter().skip(1).step_by(2).copied().collect()
    }

    /// Whether every fence is as it was.
    pub fn stand(&self) -> bool {
        self.row.iter().step_by(2).all(|&post| post == !EMPTY)
    }
}
