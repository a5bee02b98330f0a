//! Enums whose cases are listed once.

/// An enum, and `all`, its cases in their order; a case with parts says which of them are meant.
macro_rules! listed {
    (
        $(#[$meta:meta])*
        pub enum $name:ident {
            $($(#[$said:meta])* $case:ident $(($($part:ty),+) in $which:expr)?,)+
        }
    ) => {
        $(#[$meta])*
        #[derive(Clone, Copy, Debug, PartialEq, Eq)]
        pub enum $name {
            $($(#[$said])* $case $(($($part),+))?,)+
        }

        impl $name {
            pub fn all() -> Vec<$name> {
                let mut all = Vec::new();
                $(all.extend(listed!(@ $name $case $($which)?));)+
                all
            }
        }
    };
    (@ $name:ident $case:ident) => {
        [$name::$case]
    };
    (@ $name:ident $case:ident $which:expr) => {
        $which
    };
}
