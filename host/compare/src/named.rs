//! Cases that the comparison counts, each written once with its name.

/// An enum, and the names of its cases in their order.
macro_rules! named {
    ($Kind:ident, $NAMES:ident: $($Case:ident = $name:literal,)+) => {
        #[derive(Clone, Copy, Debug, PartialEq, Eq)]
        pub enum $Kind {
            $($Case,)+
        }

        pub const $NAMES: &[&str] = &[$($name,)+];
    };
}

pub(crate) use named;
