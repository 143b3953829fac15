//! Texts that no format option changes.
#![allow(dead_code)] // each test file uses a part

use std::fmt::{Debug, Display};

/// A value with both texts. A test of many types passes such values, so that the calls of `format!`
/// below are compiled once, and not for each type.
pub trait Texts: Debug + Display {}

impl<T: Debug + Display> Texts for T {}

/// Checks that format options change neither text of the value. `options` are a width and a precision.
pub fn has_texts(value: &dyn Texts, [debug, display]: [&str; 2], options: [usize; 2]) {
    let [width, precision] = options;
    let debugs = [
        format!("{value:?}"),
        format!("{value:#?}"),
        format!("{value:-?}"),
        format!("{value:+?}"),
        format!("{value:0?}"),
        format!("{value:x?}"),
        format!("{value:X?}"),
        format!("{value:width$?}"),
        format!("{value:.precision$?}"),
        format!("{value:*<-width$.precision$?}"),
        format!("{value:>width$?}"),
        format!("{value:^width$?}"),
        format!("{value:0>width$.precision$?}"),
        format!("{value:^+#0width$.precision$x?}"),
    ];
    for (number, text) in debugs.iter().enumerate() {
        assert_eq!(text, debug, "{number}: {width} {precision}");
    }
    is_displayed(&value, display, options);
}

/// Checks this only for `Display`.
pub fn is_displayed(value: &dyn Display, display: &str, options: [usize; 2]) {
    let [width, precision] = options;
    let displays = [
        format!("{value}"),
        format!("{value:#}"),
        format!("{value:-}"),
        format!("{value:+}"),
        format!("{value:0}"),
        format!("{value:width$}"),
        format!("{value:.precision$}"),
        format!("{value:*<-width$.precision$}"),
        format!("{value:>width$}"),
        format!("{value:^width$}"),
        format!("{value:0>width$.precision$}"),
        format!("{value:^+#0width$.precision$}"),
    ];
    for (number, text) in displays.iter().enumerate() {
        assert_eq!(text, display, "{number}: {width} {precision}");
    }
}
