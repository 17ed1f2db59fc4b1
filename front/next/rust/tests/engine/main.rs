//! The engine beside an independent evaluator: the answer, the rows, and every word of every buffer after each call. The
//! evaluator, job J and the random jobs are those of front/rust/tests/engine, which `cargo fmt` leaves as they are.
mod calls;
mod chart;
#[rustfmt::skip]
#[path = "../../../../rust/tests/engine/draw.rs"]
mod draw;
#[rustfmt::skip]
#[path = "../../../../rust/tests/engine/evaluator.rs"]
mod evaluator;
mod index;
#[rustfmt::skip]
#[path = "../../../../rust/tests/engine/job.rs"]
mod job;
mod jobs;
mod order;
mod random;
mod refusals;
mod short;
mod values;
