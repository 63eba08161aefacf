//! Enums whose cases have the documents' numbers.

/// Makes an enum of cases with their numbers and texts: all of them, the way to the number and back, and the texts.
macro_rules! numbered {
    ($(#[$about:meta])* $kind:ident { $($case:ident = $number:literal $text:literal,)* }) => {
        $(#[$about])*
        #[derive(Clone, Copy, Debug, PartialEq, Eq, Hash, PartialOrd, Ord)]
        #[repr(u8)]
        pub enum $kind {
            $(#[doc = concat!("Number ", $number, ": ", $text, ".")] $case = $number,)*
        }

        impl $kind {
            /// All of them, by their numbers.
            pub const ALL: [$kind; [$($number),*].len()] = [$($kind::$case),*];

            /// The one of this number, if there is one.
            pub fn from_number(number: u32) -> Option<$kind> {
                $kind::ALL.into_iter().find(|one| one.number() == number)
            }

            /// Its number, from 1 on.
            pub const fn number(self) -> u32 {
                self as u32
            }

            fn text(self) -> &'static str {
                match self {
                    $($kind::$case => $text,)*
                }
            }
        }
    };
}

pub(crate) use numbered;
