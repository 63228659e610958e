//! Lent buffers between guards, of every length from nothing to beyond what is needed.

use crate::samples::refused;
use std::fmt::Debug;
use trimthuel::Refusal;

/// The elements on each side of what is lent.
const GUARD: usize = 64;

/// What is lent, with a guard before it and one behind.
pub struct Lent<T> {
    whole: Vec<T>,
}

/// No element of a guard is like its neighbour, so that none can be moved or filled unseen.
fn guard<T: From<u8>>(first: u8) -> impl Iterator<Item = T> {
    (0..GUARD).map(move |k| T::from(first.wrapping_add((37 * k) as u8)))
}

fn guarded<T: Copy + From<u8>>(inside: &[T]) -> Vec<T> {
    guard(11)
        .chain(inside.iter().copied())
        .chain(guard(200))
        .collect()
}

impl<T: Copy + Debug + PartialEq + From<u8>> Lent<T> {
    pub fn new(inside: &[T]) -> Lent<T> {
        let whole = guarded(inside);
        Lent { whole }
    }

    pub fn lend(&mut self) -> &mut [T] {
        let end = self.whole.len() - GUARD;
        &mut self.whole[GUARD..end]
    }

    /// What was lent holds this now, and the guards are as they were.
    #[track_caller]
    pub fn holds(&self, inside: &[T]) {
        assert_eq!(self.whole, guarded(inside));
    }
}

/// Bytes that are no image, no card and no line, and more than any of them has.
pub const FILL: [u8; 306] = [0xEE; 306];

/// What bytes are after something was written to their start.
pub fn overwritten(bytes: &[u8], written: &[u8]) -> Vec<u8> {
    [written, &bytes[written.len()..]].concat()
}

/// R33: a buffer that is too short for what is written is refused and left; in any other it stands at the start.
#[track_caller]
pub fn writes(call: impl Fn(&mut [u8]) -> Result<usize, Refusal>, written: &[u8]) {
    for length in 0..=FILL.len() {
        let mut out = Lent::new(&FILL[..length]);
        let said = call(out.lend());
        if length < written.len() {
            assert_eq!(said, refused(13, 0));
            out.holds(&FILL[..length]);
        } else {
            assert_eq!(said, Ok(written.len()));
            out.holds(&overwritten(&FILL[..length], written));
        }
    }
}
