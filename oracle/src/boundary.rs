//! What the boundary for C and Rust answers (R63 to R66, R85 to R93, R98, R102), by this program's own rules.

#[cfg(any(test, feature = "house"))]
mod act;
mod cards;
#[cfg(any(test, feature = "house"))]
mod desk;
mod example;
#[cfg(any(test, feature = "house"))]
mod images;

#[cfg(any(test, feature = "house"))]
pub use act::{should, Act, NewLine, Told, NO_SLOT};
pub use cards::{reordered, rewrite};
#[cfg(any(test, feature = "house"))]
pub use desk::{Desk, Lent, GUARD};
pub use example::example;
