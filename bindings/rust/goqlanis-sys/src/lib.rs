//! The functions of `libgoqlanis.a`, as `bindings/c/goqlanis.h` declares and explains them.
#![no_std]
#![warn(missing_docs)]
#![allow(non_camel_case_types)]

// Constants of one type, with a common comment.
macro_rules! constants {
    ($type:ty, $about:literal; $($name:ident = $value:literal),+) => {
        $(#[doc = $about] pub const $name: $type = $value;)+
    };
}

/// A `reserve` of half of the codewords that may be lost.
pub const GOQ_HALF: u32 = 0xffff_ffff;

/// No colour of their own: these modules have the colour of all dark or light ones.
pub const GOQ_SAME: u32 = 0xffff_ffff;

// The constants, structs and calls of goqlanis.h, as bindings/same writes them.
include!("header.in");
