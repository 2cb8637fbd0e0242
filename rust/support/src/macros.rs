//! The macros that take an allocator or a handle before their first `;`, and those that state what is proved.

/// What is proved to be true: tested in a build with debug assertions, and else not.
#[macro_export]
macro_rules! prove {
    ($($what:tt)*) => { ::core::debug_assert!($($what)*) };
}

/// What is proved to be equal, as `prove!`.
#[macro_export]
macro_rules! prove_eq {
    ($($what:tt)*) => { ::core::debug_assert_eq!($($what)*) };
}

/// What is proved to differ, as `prove!`.
#[macro_export]
macro_rules! prove_ne {
    ($($what:tt)*) => { ::core::debug_assert_ne!($($what)*) };
}

/// `assert!(rt; a < b)`: panics unless it is true.
#[macro_export]
macro_rules! assert {
    ($handle:expr; $($what:tt)*) => {{ let _ = &$handle; ::core::assert!($($what)*) }};
}

/// `assert_eq!(rt; a, b)`: panics unless they are equal.
#[macro_export]
macro_rules! assert_eq {
    ($handle:expr; $($what:tt)*) => {{ let _ = &$handle; ::core::assert_eq!($($what)*) }};
}

/// `assert_ne!(rt; a, b)`: panics if they are equal.
#[macro_export]
macro_rules! assert_ne {
    ($handle:expr; $($what:tt)*) => {{ let _ = &$handle; ::core::assert_ne!($($what)*) }};
}

/// `panic!(rt; "..")`: ends the process, or the test.
#[macro_export]
macro_rules! panic {
    ($handle:expr $(;)?) => {{ let _ = &$handle; ::core::panic!() }};
    ($handle:expr; $($what:tt)+) => {{ let _ = &$handle; ::core::panic!($($what)+) }};
}

/// `format!(in alloc; "..")`: a text, or an Err where memory is refused.
#[macro_export]
macro_rules! format {
    (in $alloc:expr; $($what:tt)+) => {
        $crate::string::String::format($alloc, ::core::format_args!($($what)+))
    };
}

/// `vec![in alloc; a, b]` and `vec![in alloc; a; n]`: a list, or an Err where memory is refused.
#[macro_export]
macro_rules! vec {
    (in $alloc:expr $(;)?) => { $crate::vec::Vec::with_capacity($alloc, 0) };
    (in $alloc:expr; $item:expr; $count:expr) => { $crate::vec::Vec::from_elem($alloc, $item, $count) };
    (in $alloc:expr; $($item:expr),+ $(,)?) => { $crate::vec::Vec::from_array($alloc, [$($item),+]) };
}

/// `println!(rt; "..")`: a line to the standard output, or an Err where it isn't written.
#[cfg(feature = "std")]
#[macro_export]
macro_rules! println {
    ($handle:expr $(;)?) => { $handle.println(::core::format_args!("")) };
    ($handle:expr; $($what:tt)+) => { $handle.println(::core::format_args!($($what)+)) };
}

/// `eprintln!(rt; "..")`: a line to the standard error output, or an Err where it isn't written.
#[cfg(feature = "std")]
#[macro_export]
macro_rules! eprintln {
    ($handle:expr $(;)?) => { $handle.eprintln(::core::format_args!("")) };
    ($handle:expr; $($what:tt)+) => { $handle.eprintln(::core::format_args!($($what)+)) };
}
