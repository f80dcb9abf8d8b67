//! Courses that propagate wide or deep: many sets changed in one pass and more behind them, as many passes as there can be, the greatest gains.
use crate::inputs::Random;
use crate::logs::{Course, Steps};

/// How a wide course is built; its last event enables 0 -> 1, and all that was built lies behind 1.
#[derive(Clone, Copy, Debug, PartialEq, Eq)]
pub enum Wide {
    /// 1 to many, each of these to one more.
    Layers,
    /// The same, the farther layer enabled first.
    LayersBack,
    /// 0 has had the tags of all; 1 to all others.
    Collector,
    /// One long way, enabled from its end.
    Deep,
    /// 1 to nearly all others, and only the last of these to one more.
    LastSpoke,
    /// The same with any of these.
    AnySpoke,
    /// 1 to many, all of these to one, and this one on.
    Diamond,
    /// 0 has had the tags of all; 1 to many, each of these to one more.
    CollectorLayers,
}

/// All kinds.
pub const WIDE: [Wide; 8] = [
    Wide::LastSpoke,
    Wide::Collector,
    Wide::Deep,
    Wide::Layers,
    Wide::LayersBack,
    Wide::AnySpoke,
    Wide::Diamond,
    Wide::CollectorLayers,
];

/// The ends of the flows behind 1, in the order of their enabling.
fn behind(random: &mut Random, kind: Wide, n: u32) -> Vec<(u32, u32)> {
    let half = (n - 2) / 2;
    let near = (0..half).map(|i| (1, 2 + i));
    let far = (0..half).map(|i| (2 + i, 2 + half + i));
    let spoke = if kind == Wide::AnySpoke { 2 + random.below(n as usize - 3) as u32 } else { n - 2 };
    match kind {
        Wide::Layers | Wide::CollectorLayers => near.chain(far).collect(),
        Wide::LayersBack => far.chain(near).collect(),
        Wide::Collector => (2..n).map(|to| (1, to)).collect(),
        Wide::Deep => (1..n - 1).rev().map(|from| (from, from + 1)).collect(),
        Wide::LastSpoke | Wide::AnySpoke => (2..n - 1).map(|to| (1, to)).chain([(spoke, n - 1)]).collect(),
        Wide::Diamond => near.chain((0..half).map(|i| (2 + i, 2 + half))).chain((3 + half..n).map(|to| (2 + half, to))).collect(),
    }
}

/// A course up to its last event, and the ends of the flow that this one enables; on the container numbers as they are or on drawn ones.
pub fn wide_course(random: &mut Random, kind: Wide, n: u32, mixed: bool) -> (Course, (u32, u32)) {
    let mut names: Vec<u32> = (0..n).collect();
    if mixed {
        (1..names.len()).for_each(|i| names.swap(i, random.below(i + 1)));
    }
    let named = |ends: (u32, u32)| (names[ends.0 as usize], names[ends.1 as usize]);
    let mut course = Course::new(n, if mixed { Steps::Gaps } else { Steps::Ones });
    if matches!(kind, Wide::Collector | Wide::CollectorLayers) {
        for from in 1..n {
            course.enable_ends(random, named((from, 0)));
            course.disable_greatest();
        }
    }
    for ends in behind(random, kind, n) {
        course.enable_ends(random, named(ends));
    }
    (course, named((0, 1)))
}

#[cfg(test)]
mod tests {
    use super::*;
    use crate::sentence::after_all;

    /// The gain of the last event of a kind on n containers.
    fn last_gain(kind: Wide, n: u32, mixed: bool) -> u64 {
        let mut random = Random::new(2, 0, 0);
        let (mut course, last) = wide_course(&mut random, kind, n, mixed);
        let before = after_all(n as usize, &course.events).1;
        course.enable_ends(&mut random, last);
        after_all(n as usize, &course.events).1 - before
    }

    /// On 256 containers each kind has the gain that its picture gives, whatever the containers are called.
    #[test]
    fn gains_of_the_kinds() {
        let expected = [255, 64_771, 255, 255, 255, 255, 255, 64_644];
        for (kind, gain) in WIDE.into_iter().zip(expected) {
            assert_eq!([last_gain(kind, 256, false), last_gain(kind, 256, true)], [gain, gain], "{kind:?}");
        }
    }
}
