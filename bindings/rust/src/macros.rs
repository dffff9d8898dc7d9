//! The macro that writes terms.

/// Makes a term: a tuple in braces, a list in brackets, an atom after a colon, and any other part as an expression of
/// Rust whose value converts into a term.
///
/// ```
/// use yoyoash::term;
///
/// let price = 30;
/// assert_eq!(term!({:apple, price, [1, price + 1]}).to_string(), "{apple,30,[1,31]}");
/// assert_eq!(term!({:"Big apple", "ab", b"\x00", true}).to_string(), "{'Big apple',<<97,98>>,<<0>>,true}");
/// assert_eq!(term!([{:a, {}}, []]).to_string(), "[{a,{}},[]]");
/// assert_eq!(term!(-5).to_string(), "-5");
/// ```
#[macro_export]
macro_rules! term {
    ({ $($parts:tt)* }) => { $crate::Term::Tuple($crate::parts_of_term!([] $($parts)*)) };
    ([ $($parts:tt)* ]) => { $crate::Term::List($crate::parts_of_term!([] $($parts)*)) };
    (: $name:ident) => { $crate::Term::Atom(::std::string::String::from(::std::stringify!($name))) };
    (: $text:literal) => { $crate::Term::Atom(::std::string::String::from($text)) };
    ($value:expr) => { $crate::Term::from($value) };
}

/// Makes the vector of the parts of a tuple or list: of those in brackets, which are done, and of the rest.
#[doc(hidden)]
#[macro_export]
macro_rules! parts_of_term {
    ([$($done:expr),*]) => { ::std::vec![$($done),*] };
    ([$($done:expr),*] { $($parts:tt)* } $(, $($rest:tt)*)?) => {
        $crate::parts_of_term!([$($done,)* $crate::term!({ $($parts)* })] $($($rest)*)?)
    };
    ([$($done:expr),*] [ $($parts:tt)* ] $(, $($rest:tt)*)?) => {
        $crate::parts_of_term!([$($done,)* $crate::term!([ $($parts)* ])] $($($rest)*)?)
    };
    ([$($done:expr),*] : $name:ident $(, $($rest:tt)*)?) => {
        $crate::parts_of_term!([$($done,)* $crate::term!(: $name)] $($($rest)*)?)
    };
    ([$($done:expr),*] : $text:literal $(, $($rest:tt)*)?) => {
        $crate::parts_of_term!([$($done,)* $crate::term!(: $text)] $($($rest)*)?)
    };
    ([$($done:expr),*] $value:expr $(, $($rest:tt)*)?) => {
        $crate::parts_of_term!([$($done,)* $crate::term!($value)] $($($rest)*)?)
    };
}
