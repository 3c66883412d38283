//! The linked library, for programs that compare it with the original.

pub mod calls;
