//! The test copy: stun.rs and turn.rs stand here after tools/rust/make.
pub mod stun;
pub mod turn;
