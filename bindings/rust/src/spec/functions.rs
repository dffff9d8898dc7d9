//! The functions of match specifications.
use super::expr::Expr;
use std::ops::{Add, Div, Mul, Not, Rem, Sub};

/// Takes the place of the second part in comments.
macro_rules! second {
    ($argument:ident) => {
        ""
    };
}

/// Makes a method for each function, with its own name in match specifications.
macro_rules! functions {
    ($($(#[$comment:meta])* $method:ident($($argument:ident)?) = $name:literal $made:literal;)*) => {
        impl Expr {
            $($(#[$comment])*
            #[doc = concat!(
                " `var(1).", stringify!($method), "(", $("var(2)", second!($argument),)? ")` is `", $made, "`."
            )]
            pub fn $method(self $(, $argument: impl Into<Expr>)?) -> Expr {
                Expr::of($name, [self $(, $argument.into())?])
            })*
        }
    };
}

functions! {
    /// Returns whether the value is an atom.
    is_atom() = "is_atom" "{is_atom,'$1'}";
    /// Returns whether the value is an integer.
    is_integer() = "is_integer" "{is_integer,'$1'}";
    /// Returns whether the value is a list.
    is_list() = "is_list" "{is_list,'$1'}";
    /// Returns whether the value is a tuple.
    is_tuple() = "is_tuple" "{is_tuple,'$1'}";
    /// Returns whether the value is a binary.
    is_binary() = "is_binary" "{is_binary,'$1'}";
    /// Returns whether the value is the identifier of a process.
    is_pid() = "is_pid" "{is_pid,'$1'}";
    /// Returns whether the value is the identifier of a table.
    is_reference() = "is_reference" "{is_reference,'$1'}";
    /// Returns whether both values are true, after it evaluated both.
    and(other) = "and" "{'and','$1','$2'}";
    /// Returns whether a value is true, after it evaluated both.
    or(other) = "or" "{'or','$1','$2'}";
    /// Returns whether exactly one value is true.
    xor(other) = "xor" "{'xor','$1','$2'}";
    /// Returns whether both values are true. If the first is false, the other one is not evaluated.
    and_also(other) = "andalso" "{'andalso','$1','$2'}";
    /// Returns whether a value is true. If the first is true, the other one is not evaluated.
    or_else(other) = "orelse" "{'orelse','$1','$2'}";
    /// Returns whether both values are the same term.
    eq(other) = "=:=" "{'=:=','$1','$2'}";
    /// Returns whether the values are different terms.
    ne(other) = "=/=" "{'=/=','$1','$2'}";
    /// Returns whether the value is less, in the order of all terms.
    lt(other) = "<" "{'<','$1','$2'}";
    /// Returns whether the value is less or equal.
    le(other) = "=<" "{'=<','$1','$2'}";
    /// Returns whether the value is greater.
    gt(other) = ">" "{'>','$1','$2'}";
    /// Returns whether the value is greater or equal.
    ge(other) = ">=" "{'>=','$1','$2'}";
    /// Returns the integer without its sign.
    abs() = "abs" "{abs,'$1'}";
    /// Returns the first element of a list.
    hd() = "hd" "{hd,'$1'}";
    /// Returns the list without its first element.
    tl() = "tl" "{tl,'$1'}";
    /// Returns the number of elements of a list.
    length() = "length" "{length,'$1'}";
    /// Returns the number of elements of a tuple, or of bytes of a binary.
    size() = "size" "{size,'$1'}";
}

impl Expr {
    /// Returns an element of a tuple. The first position is 1. `var(1).element(2)` is `{element,2,'$1'}`.
    pub fn element(self, position: impl Into<Expr>) -> Expr {
        Expr::of("element", [position.into(), self])
    }
}

/// Makes an operator of a part and what converts into one, and of a number and a part.
macro_rules! operator {
    ($operator:ident $method:ident $name:literal: $($number:ty)*) => {
        impl<T: Into<Expr>> $operator<T> for Expr {
            type Output = Expr;

            fn $method(self, other: T) -> Expr {
                Expr::of($name, [self, other.into()])
            }
        }

        $(impl $operator<Expr> for $number {
            type Output = Expr;

            fn $method(self, other: Expr) -> Expr {
                Expr::of($name, [self.into(), other])
            }
        })*
    };
}

macro_rules! operators {
    ($($operator:ident $method:ident $name:literal;)*) => {
        $(operator!($operator $method $name: i8 i16 i32 i64 i128 isize u8 u16 u32 u64 usize);)*
    };
}

operators! {
    Add add "+";
    Sub sub "-";
    Mul mul "*";
    Div div "div";
    Rem rem "rem";
}

impl Not for Expr {
    type Output = Expr;

    fn not(self) -> Expr {
        Expr::of("not", [self])
    }
}
