//! What a call is lent, to write or only to read, between marked elements that no call may reach.

use std::fmt::Debug;

/// So many marked elements stand on each side.
pub const MARGIN: usize = 16;

/// Every bit around and within a buffer is marked once as set and once as clear, so no store can
/// pass unseen.
pub const MARKS: [u8; 2] = [0xa5, 0x5a];

/// What can be lent: bytes, and the numbers of a plan.
pub trait Element: Copy + PartialEq + Debug {
    /// Both marks come in turn.
    fn mark(nth: u64) -> Self;
}

impl Element for u8 {
    fn mark(nth: u64) -> u8 {
        MARKS[(nth % 2) as usize]
    }
}

impl Element for u32 {
    fn mark(nth: u64) -> u32 {
        u32::from_ne_bytes([u8::mark(nth); 4])
    }
}

/// Elements to lend, with marked ones around them.
pub struct Lent<T> {
    all: Vec<T>,
    mark: T,
    from: usize,
    end: usize,
}

impl<T: Element> Lent<T> {
    /// All places that bytes can have in a word of memory come in turn.
    pub fn new(nth: u64, content: &[T]) -> Lent<T> {
        let mark = T::mark(nth);
        let from = MARGIN + (nth / 2 % 8) as usize;
        let end = from + content.len();
        let mut all = vec![mark; end + MARGIN];
        all[from..end].copy_from_slice(content);
        Lent {
            all,
            mark,
            from,
            end,
        }
    }

    pub fn slice(&mut self) -> &mut [T] {
        &mut self.all[self.from..self.end]
    }

    /// Wants this content, and the marks around it as they were.
    #[track_caller]
    pub fn wants(&self, content: &[T], what: impl Fn() -> String) {
        let lent = &self.all[self.from..self.end];
        assert!(
            lent == content,
            "{}: {lent:02x?} left, {content:02x?} wanted",
            what()
        );
        let mut around = self.all[..self.from].iter().chain(&self.all[self.end..]);
        assert!(
            around.all(|element| *element == self.mark),
            "{}: something around what was lent has changed",
            what()
        );
    }
}
