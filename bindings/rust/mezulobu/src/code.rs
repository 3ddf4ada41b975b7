//! What declares the types of numbers: a library of a later version may answer one that isn't known
//! here, so each is a number with names, and no enum.

/// A number, with the names of those that are known.
macro_rules! codes {
    ($(#[$doc:meta])* $name:ident($kind:ty) { $($(#[$says:meta])* $code:ident = $value:expr,)* }) => {
        $(#[$doc])*
        #[derive(Clone, Copy, PartialEq, Eq, PartialOrd, Ord, Hash)]
        pub struct $name(pub(crate) $kind);

        impl $name {
            $($(#[$says])* pub const $code: Self = Self($value);)*

            /// The number, as `mezulobu.h` has it.
            pub const fn number(self) -> $kind {
                self.0
            }
        }

        impl std::fmt::Debug for $name {
            fn fmt(&self, f: &mut std::fmt::Formatter<'_>) -> std::fmt::Result {
                match *self {
                    $(Self::$code => f.write_str(stringify!($code)),)*
                    Self(other) => write!(f, "{}({other})", stringify!($name)),
                }
            }
        }
    };
}
pub(crate) use codes;

/// A set of bits, with the names of those that are known. The default is the empty one.
macro_rules! sets {
    ($(#[$doc:meta])* $name:ident($kind:ty) { $($(#[$says:meta])* $code:ident = $value:expr,)* }) => {
        $(#[$doc])*
        #[derive(Clone, Copy, Default, PartialEq, Eq, Hash)]
        pub struct $name(pub(crate) $kind);

        impl $name {
            $($(#[$says])* pub const $code: Self = Self($value);)*

            /// The bits, as `mezulobu.h` has them.
            pub const fn bits(self) -> $kind {
                self.0
            }

            /// Whether each bit of another set is one of this.
            pub const fn contains(self, other: Self) -> bool {
                self.0 & other.0 == other.0
            }
        }

        impl std::ops::BitOr for $name {
            type Output = Self;

            fn bitor(self, other: Self) -> Self {
                Self(self.0 | other.0)
            }
        }

        impl std::fmt::Debug for $name {
            fn fmt(&self, f: &mut std::fmt::Formatter<'_>) -> std::fmt::Result {
                let known = [$((Self::$code, stringify!($code)),)*];
                let names = known.iter().filter(|(it, _)| self.contains(*it)).map(|(_, name)| *name);
                let names = names.collect::<Vec<_>>().join(" | ");
                write!(f, "{}({names})", stringify!($name))
            }
        }
    };
}
pub(crate) use sets;
