//! What the numbers in answers and records stand for.
use std::fmt;

/// An enum whose variants count from 0, each with its spelling.
macro_rules! numbered {
    ($(#[$about:meta])* $name:ident { $($variant:ident $spelling:literal,)+ }) => {
        $(#[$about])*
        #[derive(Clone, Copy, Debug, PartialEq, Eq, Hash)]
        #[repr(u8)]
        pub enum $name { $(#[doc = concat!("`", $spelling, "`")] $variant,)+ }

        impl $name {
            const ALL: &[Self] = &[$(Self::$variant,)+];

            /// The one that has a number.
            #[inline]
            pub fn of(number: u32) -> Option<Self> {
                Self::ALL.get(number as usize).copied()
            }

            /// Its number in a listing.
            #[inline]
            pub fn number(self) -> u8 {
                self as u8
            }

            /// As it is written in a source.
            pub fn spelling(self) -> &'static str {
                match self { $(Self::$variant => $spelling,)+ }
            }
        }

        impl fmt::Display for $name {
            fn fmt(&self, f: &mut fmt::Formatter) -> fmt::Result {
                f.pad(self.spelling())
            }
        }
    };
}

numbered! {
    /// The byte registers, 0 to 7, and the word registers, 8 to 15, by their encoding.
    Register {
        Al "al", Cl "cl", Dl "dl", Bl "bl", Ah "ah", Ch "ch", Dh "dh", Bh "bh",
        Ax "ax", Cx "cx", Dx "dx", Bx "bx", Sp "sp", Bp "bp", Si "si", Di "di",
    }
}

numbered! {
    /// The segment registers.
    Segment { Es "es", Cs "cs", Ss "ss", Ds "ds", }
}

numbered! {
    /// The size words.
    Size { Byte "byte", Word "word", }
}

numbered! {
    /// The operators. [`Operator::Add`] and [`Operator::Subtract`] also stand before an operand.
    Operator { Add "+", Subtract "-", Multiply "*", Divide "/", }
}

numbered! {
    /// The registers that make an address.
    Encoding {
        BxSi "bx+si", BxDi "bx+di", BpSi "bp+si", BpDi "bp+di", Si "si", Di "di", Bp "bp", Bx "bx",
    }
}

numbered! {
    /// The words that are no operation and make a statement of their own kind.
    Directive { Equ "equ", Db "db", Dw "dw", Times "times", }
}

/// A word that stands for itself in an operand.
#[derive(Clone, Copy, Debug, PartialEq, Eq, Hash)]
pub enum Name {
    /// A general register.
    Register(Register),
    /// A segment register.
    Segment(Segment),
    /// A size word.
    Size(Size),
}
