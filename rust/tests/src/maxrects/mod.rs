//! Tests of the packer: places worked by hand, and random boxes that plain code looks for position by position.

mod placing;
mod random;
