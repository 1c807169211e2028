//! Mistakes in packing that tempt: each differs from SPEC 9.7 in one rule. The texts
//! of the tests must tell each from the right one.

use crate::file::*;
use crate::packing_rules::{sorted, whole, Rules, RIGHT};
use crate::pins::{places, sensors};
use crate::session::State;

/// A change of one rule.
type Change = fn(&mut Rules);

/// Each mistake in reading lines and words.
pub const WRONG_LINES: [(&str, Change); 30] = [
    ("lines from 0", |r| r.first = 0),
    ("comments not counted", |r| r.uncounted = RIGHT.is_comment),
    ("empty lines not counted", |r| {
        r.uncounted = <[u8]>::is_empty
    }),
    ("lines without a word not counted", |r| {
        r.uncounted = |line| line.trim_ascii().is_empty()
    }),
    ("a comment behind spaces", |r| {
        r.is_comment = |line| line.trim_ascii_start().starts_with(b"#")
    }),
    ("no comments", |r| r.is_comment = |_| false),
    ("a long comment is a fault", |r| {
        r.is_comment = |line| line.starts_with(b"#") && line.len() <= 4_000
    }),
    ("4,001 bytes taken", |r| {
        r.is_too_long = |line| line.len() > 4_001
    }),
    ("4,000 bytes a fault", |r| {
        r.is_too_long = |line| line.len() >= 4_000
    }),
    ("the return that is cut is not counted", |r| {
        r.is_too_long = |line| (RIGHT.cut)(line).len() > 4_000
    }),
    ("long lines of spaces passed over", |r| {
        r.is_too_long = |line| line.len() > 4_000 && !line.trim_ascii().is_empty()
    }),
    ("zeros in front do not count", |r| {
        r.is_too_long = |line| line.len() - line.iter().take_while(|&&b| b == b'0').count() > 4_000
    }),
    ("no return is cut", |r| r.cut = |line| line),
    ("all returns at the end are cut", |r| {
        r.cut = |line| {
            let kept = line.iter().rposition(|&byte| byte != b'\r');
            &line[..kept.map_or(0, |place| place + 1)]
        }
    }),
    ("the last return of the text is not cut", |r| {
        r.read = |text| match text.last() {
            Some(b'\r') => [text, b"\r"].concat(),
            _ => text.to_vec(),
        }
    }),
    ("the last line needs a feed", |r| {
        r.read = |text| {
            let end = text.iter().rposition(|&byte| byte == b'\n');
            text[..end.unwrap_or(0)].to_vec()
        }
    }),
    ("a return ends a line", |r| {
        r.read = |text| {
            let feed = |&byte: &u8| if byte == b'\r' { b'\n' } else { byte };
            text.iter().map(feed).collect()
        }
    }),
    ("a return is white space", |r| {
        r.white = b" \t\r";
        r.barred = b"\x0c";
    }),
    ("a form feed is white space", |r| {
        r.white = b" \t\x0c";
        r.barred = b"\r";
    }),
    ("a vertical tab is white space", |r| r.white = b" \t\x0b"),
    ("a zero byte is white space", |r| r.white = b" \t\0"),
    ("a zero byte ends the text", |r| {
        r.read = |text| {
            text.split(|&byte| byte == 0)
                .next()
                .unwrap_or(text)
                .to_vec()
        }
    }),
    ("a tab is none", |r| r.white = b" "),
    ("a comma parts words", |r| r.white = b" \t,"),
    ("`+` taken", |r| {
        r.number = |word| (RIGHT.number)(word.strip_prefix('+').unwrap_or(word))
    }),
    ("numbers of 64 bits", |r| r.number = whole),
    ("numbers of 16 bits", |r| {
        r.number = |word| whole(word).filter(|&n| i16::try_from(n).is_ok())
    }),
    ("no zeros in front", |r| {
        r.number = |word| {
            let zeros = word.trim_start_matches('-').starts_with('0');
            (RIGHT.number)(word).filter(|&n| n == 0 || !zeros)
        }
    }),
    ("no sign of 0", |r| {
        r.number = |word| (RIGHT.number)(word).filter(|&n| n != 0 || !word.starts_with('-'))
    }),
    ("no negative numbers", |r| {
        r.number = |word| (RIGHT.number)(word).filter(|&n| n >= 0)
    }),
];

/// Each mistake in taking pins, in writing the file and in naming the fault.
pub const WRONG_PINS: [(&str, Change); 25] = [
    ("a negative kind refused by 15", |r| {
        r.kind = |words| match words {
            [Some(..0)] => Some(u32::MAX),
            _ => (RIGHT.kind)(words),
        }
    }),
    ("a negative kind is a sensor", |r| {
        r.kind = |words| match words {
            [Some(..0)] => Some(0),
            _ => (RIGHT.kind)(words),
        }
    }),
    ("a kind has to be named", |r| {
        r.kind = |words| (RIGHT.kind)(words).filter(|_| !words.is_empty())
    }),
    ("further words passed over", |r| {
        r.kind = |words| (RIGHT.kind)(&words[..words.len().min(1)])
    }),
    ("a kind above 2 is an error", |r| {
        r.kind = |words| (RIGHT.kind)(words).filter(|&kind| kind <= 2)
    }),
    ("a kind of 8 bits", |r| {
        r.kind = |words| (RIGHT.kind)(words).map(|kind| kind % 256)
    }),
    ("displays where no kind is named", |r| {
        r.kind = |words| {
            if words.is_empty() {
                Some(1)
            } else {
                (RIGHT.kind)(words)
            }
        }
    }),
    ("30,001 taken", |r| r.checks = &[15, 8, 10]),
    ("a repeat taken once", |r| {
        r.checks = &[7, 15, 10];
        r.put = |pins, pin| {
            if pins.iter().all(|other| other.point != pin.point) {
                pins.push(pin)
            }
        }
    }),
    ("a repeat taken twice", |r| r.checks = &[7, 15, 10]),
    ("a repeat changes the kind", |r| {
        r.checks = &[7, 15, 10];
        r.put = |pins, pin| {
            pins.retain(|other| other.point != pin.point);
            pins.push(pin)
        }
    }),
    ("a 65th pin taken", |r| r.most = 65),
    ("a 64th pin refused", |r| r.most = 63),
    ("15 before 7", |r| r.checks = &[15, 7, 8, 10]),
    ("8 before 15", |r| r.checks = &[7, 8, 15, 10]),
    ("10 before 8", |r| r.checks = &[7, 15, 10, 8]),
    ("10 before 15", |r| r.checks = &[7, 10, 15, 8]),
    ("the pins in the order of the lines", |r| {
        r.write = |pins| write_plain(&pins)
    }),
    ("the pins by y first", |r| {
        r.write = |mut pins| {
            pins.sort_by_key(|pin| (pin.point.y, pin.point.x));
            write_plain(&pins)
        }
    }),
    ("kinds always written", |r| {
        r.write = |pins| {
            let pins = sorted(pins);
            of_sections(&[&point_bytes(&places(&pins)), &[], &[], &kind_bytes(&pins)])
        }
    }),
    ("kinds never written", |r| {
        r.write = |pins| write_plain(&sensors(&places(&sorted(pins))))
    }),
    ("the full file", |r| {
        r.write = |pins| write(&State::new(pins, Vec::new()))
    }),
    ("no file of no pin", |r| {
        r.write = |pins| {
            if pins.is_empty() {
                Vec::new()
            } else {
                (RIGHT.write)(pins)
            }
        }
    }),
    ("the last fault", |r| {
        r.fault = |faults, file| faults.last().cloned().map_or(Ok(file), Err)
    }),
    ("the pins without a fault", |r| r.fault = |_, file| Ok(file)),
];
