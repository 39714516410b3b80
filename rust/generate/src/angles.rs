//! Angles for DmAdd and DmSub: from both sides of each bound, well and nearly well formed.

use crate::random::Random;
use refal0_apart::angles::{MOST, angle_text};

#[rustfmt::skip]
const AT_BOUNDS: &[&str] = &[
    "0:00", "-0:00", "0:01", "-0:01", "0:59", "-0:59", "1:00", "359:59", "-359:59", "359:58", "359:00", "180:00",
    "179:59", "-180:00", "000:00", "-007:05", "-000:01",
];
#[rustfmt::skip]
const NEARLY: &[&str] = &[
    "+1:00", "0001:00", "360:00", "-360:00", "999:59", "1:5", "1:60", "1:99", "1:000", ":30", "-:30", "-", "", "12",
    "1:0a", "1:a0", "a:00", "--1:00", "1;00", "1:-5", "- 1:00", "1:00\n", "1::00", "1:0/", "1:0;", "/:00", "12 :30",
];
const NEARLY_PARTED: &[&str] = &["", "  ", "\t", "\n", ",", " -", "- "];

/// Two angles, mostly as a call takes them.
pub fn argument(random: &mut Random) -> Vec<u8> {
    let (mut argument, second) = if random.one_in(3) { at_range(random) } else { (angle(random), angle(random)) };
    argument.extend(between(random));
    argument.extend(second);
    if random.one_in(30) {
        argument.push(b' ');
    }
    argument
}

/// Two angles whose sum or difference is at the end of the range, just past it, or about 0.
fn at_range(random: &mut Random) -> (Vec<u8>, Vec<u8>) {
    let value = random.pick(&[-MOST - 1, -MOST, 1 - MOST, -1, 0, 1, MOST - 1, MOST, MOST + 1]);
    let least = (value - MOST).max(-MOST);
    let most = (value + MOST).min(MOST);
    let first = least + random.below((most - least + 1) as usize) as i32;
    let second = (value - first) * random.pick(&[1, -1]);
    (angle_text(first), angle_text(second))
}

/// What parts two angles: mostly one blank.
pub fn between(random: &mut Random) -> &'static [u8] {
    if random.one_in(25) { random.pick(NEARLY_PARTED).as_bytes() } else { b" " }
}

pub fn angle(random: &mut Random) -> Vec<u8> {
    match random.below(24) {
        0 => random.pick(NEARLY).into(),
        1..=8 => random.pick(AT_BOUNDS).into(),
        _ => {
            let sign = random.pick(&["", "", "-"]);
            let degrees = near(random, 360);
            let width = random.pick(&[1, 1, 1, 2, 3]);
            format!("{sign}{degrees:0width$}:{:02}", near(random, 60)).into_bytes()
        }
    }
}

/// A number below the bound, often small, at times the last such or the bound itself.
fn near(random: &mut Random, bound: usize) -> usize {
    match random.below(12) {
        0 => bound - 1 + random.below(2),
        1..=5 => random.below(bound / 10),
        _ => random.below(bound),
    }
}
