//! The Rust that the library is a port of, built unchanged from where it stands (see build.rs).

// Much of the Rust is private and not called here.
#![allow(dead_code)]

include!(concat!(env!("OUT_DIR"), "/oracle.rs"));

/// The mask of forbidden user operations: its source was not supplied, and no clip file has one.
pub mod uo_mask {
    /// A mask as the file has it.
    #[derive(Debug, Clone, Copy, PartialEq, Eq, Default)]
    pub struct UoMask(pub u64);

    impl UoMask {
        /// The mask of these bits.
        pub fn from_raw(bits: u64) -> Self {
            UoMask(bits)
        }
    }
}
