//! Generated inputs, each from one seed: what they are made of is known before they are read, so
//! that a reader can be held to it.

pub mod calls;
pub mod damage;
pub mod draft;
pub mod faults;
pub mod known_tables;
pub mod limits;
pub mod marks;
pub mod prng;
pub mod requirements;
mod scale_limits;
pub mod scales;
pub mod several;
pub mod sheets;
pub mod tables;
pub mod watches;
pub mod windows;
