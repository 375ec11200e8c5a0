//! Stand-in: a set of named bits, with what the sources ask of it.

#[macro_export]
macro_rules! bitflags {
    (
        $(#[$of_set:meta])*
        $vis:vis struct $set:ident: $bits:ty {
            $($(#[$of_flag:meta])* const $flag:ident = $value:expr;)*
        }
    ) => {
        $(#[$of_set])*
        $vis struct $set($bits);

        impl $set {
            $($(#[$of_flag])* pub const $flag: Self = Self($value);)*

            pub const fn bits(&self) -> $bits {
                self.0
            }

            pub const fn empty() -> Self {
                Self(0)
            }

            pub const fn contains(&self, other: Self) -> bool {
                self.0 & other.0 == other.0
            }

            pub const fn union(self, other: Self) -> Self {
                Self(self.0 | other.0)
            }
        }

        impl ::std::ops::BitOr for $set {
            type Output = Self;

            fn bitor(self, other: Self) -> Self {
                self.union(other)
            }
        }
    };
}
