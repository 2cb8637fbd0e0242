//! Methods that the oldest compiler lacks, called by their traits so that a newer one doesn't put its own in place.

use wollemigo_support::prelude::{CastUnsigned, ExpectErrIn, ExpectIn, Ilog2, IsSomeAnd};

#[test]
fn logarithms_are_those_of_the_highest_bit() {
    for exponent in 0..64 {
        let power = 1u64 << exponent;
        assert_eq!(Ilog2::ilog2(power), exponent);
        assert_eq!(Ilog2::ilog2(power + power / 2), exponent);
        assert_eq!(Ilog2::ilog2(power - 1 + power), exponent);
    }
    assert_eq!(
        (
            Ilog2::ilog2(u8::MAX),
            Ilog2::ilog2(i32::MAX),
            Ilog2::ilog2(1usize)
        ),
        (7, 30, 0)
    );
}

#[test]
fn logarithms_of_nothing_panic() {
    for number in [0, -1, i32::MIN] {
        assert!(
            std::panic::catch_unwind(|| Ilog2::ilog2(number)).is_err(),
            "{number}"
        );
    }
    assert!(std::panic::catch_unwind(|| Ilog2::ilog2(0u32)).is_err());
}

#[test]
fn an_option_is_asked_for_its_value() {
    for (option, expected) in [(None, false), (Some(1), false), (Some(2), true)] {
        assert_eq!(IsSomeAnd::is_some_and(option, |value| value == 2), expected);
    }
}

#[test]
fn a_cast_keeps_the_bits() {
    for (number, expected) in [
        (0, 0),
        (1, 1),
        (-1, u32::MAX),
        (i32::MIN, 1 << 31),
        (i32::MAX, (1 << 31) - 1),
    ] {
        assert_eq!(CastUnsigned::cast_unsigned(number), expected);
    }
    assert_eq!(
        (
            CastUnsigned::cast_unsigned(-1i8),
            CastUnsigned::cast_unsigned(-2i64)
        ),
        (255, u64::MAX - 1)
    );
}

#[test]
fn what_is_expected_is_there() {
    assert_eq!(Some(3).expect_in((), "a number"), 3);
    assert_eq!(Ok::<u8, u8>(4).expect_in(&(), "a number"), 4);
    assert_eq!(Err::<u8, u8>(5).expect_err_in((), "an error"), 5);
}

#[test]
#[should_panic(expected = "a number")]
fn nothing_where_a_value_is_expected_panics() {
    None::<u8>.expect_in((), "a number");
}

#[test]
#[should_panic(expected = "an error")]
fn a_value_where_an_error_is_expected_panics() {
    Ok::<u8, u8>(1).expect_err_in((), "an error");
}
