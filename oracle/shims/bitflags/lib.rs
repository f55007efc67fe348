//! The part of bitflags 2 that the text uses: a struct over a number with named constants, which ignores unknown bits when it truncates.

#[macro_export]
macro_rules! bitflags {
    ($($(#[$outer:meta])* $vis:vis struct $name:ident: $num:ty { $($(#[$inner:meta])* const $flag:ident = $value:expr;)* })*) => {$(
        $(#[$outer])*
        $vis struct $name($num);

        #[allow(dead_code)]
        impl $name {
            $($(#[$inner])* pub const $flag: Self = Self($value);)*
            const KNOWN: $num = 0 $(| Self::$flag.0)*;
            pub const fn bits(&self) -> $num { self.0 }
            pub const fn from_bits_truncate(bits: $num) -> Self { Self(bits & Self::KNOWN) }
            pub const fn from_bits_retain(bits: $num) -> Self { Self(bits) }
            pub const fn contains(&self, other: Self) -> bool { self.0 & other.0 == other.0 }
            pub const fn intersects(&self, other: Self) -> bool { self.0 & other.0 != 0 }
        }
    )*};
}
