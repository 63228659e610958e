//! The project's own way of asking, stepping, reading and writing, in the quickest plain Rust we can write, and ask by quicker ones (`ordered`).
//! It serves the benchmark alone: the independent reference in `oracle/` shares nothing with it.

mod ask;
mod card;
mod image;
mod ordered;
mod pump;

pub use ask::{answer, ask, passes};
pub use card::{read, write};
pub use image::{ready_image, step_image};
pub use ordered::answer_in_order;
pub use pump::{Held, Pump, Request};
