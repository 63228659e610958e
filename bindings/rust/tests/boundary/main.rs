//! The crate, and with it the library, held to docs/RULES.md: what is answered, and what every lent byte is afterwards.

mod broken;
mod cards;
mod counts;
mod header;
mod last;
mod late;
mod leave;
mod lengths;
mod lent;
mod numbers;
mod pump;
mod samples;
mod steps;
