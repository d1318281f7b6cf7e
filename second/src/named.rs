//! Enums whose cases carry a printed name.

/// Declares an enum with `ALL`, `name` and `from_name`.
macro_rules! named {
    ($(#[$about:meta])* $name:ident { $($case:ident = $text:literal,)* }) => {
        $(#[$about])*
        #[derive(Clone, Copy, PartialEq, Eq, Debug)]
        pub enum $name { $($case,)* }

        impl $name {
            pub const ALL: &'static [$name] = &[$($name::$case,)*];

            pub fn name(self) -> &'static str {
                match self { $($name::$case => $text,)* }
            }

            pub fn from_name(name: &str) -> Option<$name> {
                $name::ALL.iter().copied().find(|case| case.name() == name)
            }
        }
    };
}

pub(crate) use named;
