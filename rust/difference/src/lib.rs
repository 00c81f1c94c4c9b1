//! The library compared with the reference: each call's four numbers and every lent buffer.

pub mod calls;
pub mod compare;
pub mod damage;
pub mod generate;
pub mod held;
pub mod random;
pub mod rounds;

pub use rounds::round;
