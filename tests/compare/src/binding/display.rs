//! The proved arrows and glyphs of displays, as include/display.h declares them.
//! They take every value, so each function around them is safe.

use reference::arrows::Sight;

mod library {
    unsafe extern "C" {
        /// The arrow that a display shows for a bay.
        pub fn display_arrow(
            display_x: i16,
            display_y: i16,
            bay_x: i16,
            bay_y: i16,
            pitch: i32,
        ) -> u32;
        /// The glyph of a number.
        pub fn display_glyph(n: u32) -> u8;
    }
}

/// The arrow that a display shows for a bay, or the refusal's number.
pub fn arrow(sight: &Sight) -> u32 {
    let place = |z: i64| i16::try_from(z).expect("a place of 16 bits");
    let pitch = i32::try_from(sight.pitch).expect("a pitch of 32 bits");
    let (display, bay) = (sight.display, sight.bay);
    // SAFETY: all arguments are numbers.
    unsafe {
        library::display_arrow(
            place(display.x),
            place(display.y),
            place(bay.x),
            place(bay.y),
            pitch,
        )
    }
}

/// The glyph of a number, as its ASCII code.
pub fn glyph(n: u32) -> u8 {
    // SAFETY: the argument is a number.
    unsafe { library::display_glyph(n) }
}
