//! Numbers of each width, against the words of document 01.

use super::Random;
use crate::Tested;
use interface::Implementation;

/// Numbers at both sides of each length, and random ones of all lengths.
fn numbers() -> Vec<u64> {
    let mut random = Random::new(21);
    let edges = (0..64).flat_map(|bit| [(1u64 << bit) - 1, 1 << bit, (1 << bit) + 1]);
    let any = (0..2000).map(|_| random.word() >> random.below(64));
    edges.chain([u64::MAX - 1, u64::MAX]).chain(any).collect()
}

/// The bytes of a number by the words of document 01.
pub fn bytes_of(value: u128) -> Vec<u8> {
    if value < 128 {
        return vec![value as u8];
    }
    let mut bytes = vec![(value % 128) as u8 + 128];
    bytes.extend(bytes_of(value / 128));
    bytes
}

/// The first number that is too large for a width.
fn limit(width: u32) -> u128 {
    1 << width.min(64)
}

/// What reading these bytes answers: the number whose bytes they start with, 1 where they are the start of the bytes of
/// some number of this width, 2 otherwise.
fn expected(bytes: &[u8], width: u32) -> Result<(u64, usize), u32> {
    let Some(last) = bytes.iter().position(|&byte| byte < 128) else {
        return if bytes.len() < bytes_of(limit(width) - 1).len() { Err(1) } else { Err(2) };
    };
    let value = bytes[..=last].iter().rev().fold(0, |value, &byte| 128 * value + u128::from(byte % 128));
    if value < limit(width) && bytes_of(value) == bytes[..=last] {
        Ok((value as u64, last + 1))
    } else {
        Err(2)
    }
}

#[test]
fn there_and_back() {
    for value in numbers() {
        let bytes = bytes_of(u128::from(value));
        let mut out = [99; 14];
        assert_eq!(Tested.encode(value, &mut out, 2), Ok(2 + bytes.len()));
        assert_eq!(out[2..2 + bytes.len()], bytes);
        assert!(out[..2].iter().chain(&out[2 + bytes.len()..]).all(|&byte| byte == 99));
        for width in 0..=66 {
            let fits = u128::from(value) < limit(width);
            let read = if fits { Ok((value, 2 + bytes.len())) } else { Err(2) };
            assert_eq!(Tested.decode(&out, 2, width), read, "{value} {width}");
        }
    }
}

#[test]
fn lengths() {
    for (value, length) in [(0, 1), (127, 1), (128, 2), (16_383, 2), (16_384, 3), (2_097_151, 3), (2_097_152, 4)] {
        assert_eq!(Tested.encode(value, &mut [0; 10], 0), Ok(length));
    }
    let large = [((1 << 28) - 1, 4), (1 << 28, 5), ((1 << 35) - 1, 5), (1 << 35, 6), ((1 << 63) - 1, 9), (1 << 63, 10)];
    for (value, length) in large {
        assert_eq!(Tested.encode(value, &mut [0; 10], 0), Ok(length));
    }
}

#[test]
fn the_largest_of_each_width_and_the_next() {
    for width in 0..=66 {
        let largest = bytes_of(limit(width) - 1);
        assert_eq!(Tested.decode(&largest, 0, width), Ok(((limit(width) - 1) as u64, largest.len())));
        assert_eq!(Tested.decode(&bytes_of(limit(width)), 0, width), Err(2), "{width}");
    }
    assert_eq!(Tested.decode(&[0], 0, 0), Ok((0, 1)));
    assert!((1..=255).all(|byte| Tested.decode(&[byte], 0, 0) == Err(2)));
    assert_eq!(Tested.decode(&[255, 255, 255, 255, 255, 255, 255, 255, 255, 1], 0, u32::MAX), Ok((u64::MAX, 10)));
}

#[test]
fn numbers_that_are_cut_short() {
    for width in 0..=66 {
        let largest = bytes_of(limit(width) - 1);
        for cut in 0..largest.len() {
            assert_eq!(Tested.decode(&largest[..cut], 0, width), Err(1), "{width} {cut}");
            assert_eq!(Tested.decode(&vec![128; cut], 0, width), Err(1), "{width} {cut}");
        }
    }
}

#[test]
fn forms_that_are_too_long() {
    for width in 0..=66 {
        for value in (0..width.min(64)).map(|bit| 1 << bit).chain([0, limit(width) - 1]) {
            let mut bytes = bytes_of(value);
            *bytes.last_mut().unwrap() += 128;
            for _ in 0..12 {
                bytes.push(0);
                assert_eq!(Tested.decode(&bytes, 0, width), Err(2), "{bytes:?} {width}");
                *bytes.last_mut().unwrap() = 128;
            }
        }
    }
}

#[test]
fn each_last_byte_taken_whole() {
    for width in 0..=66 {
        let groups = bytes_of(limit(width) - 1).len();
        for byte in 0..=255 {
            let bytes = [vec![128; groups - 1], vec![byte, 1, 1]].concat();
            assert_eq!(Tested.decode(&bytes, 0, width), expected(&bytes, width), "{bytes:?} {width}");
            assert_eq!(Tested.decode(&bytes[..groups], 0, width), expected(&bytes, width), "{bytes:?} {width}");
        }
    }
    for fifth in 0..=255 {
        let read = if (1..=15).contains(&fifth) { Ok((u64::from(fifth) << 28, 5)) } else { Err(2) };
        assert_eq!(Tested.decode(&[128, 128, 128, 128, fifth], 0, 32), read);
    }
}

#[test]
fn random_bytes() {
    let mut random = Random::new(23);
    let mut seen = [0; 3];
    for _ in 0..300_000 {
        let length = random.below(13) as usize;
        let any = |random: &mut Random| [0, 1, 2, 127, 128, 255, 255, random.word() as u8][random.below(8) as usize];
        let bytes: Vec<u8> = (0..length).map(|_| any(&mut random) | [0, 128, 128][random.below(3) as usize]).collect();
        let width = random.below(67);
        let answer = Tested.decode(&bytes, 0, width);
        assert_eq!(answer, expected(&bytes, width), "{bytes:?} {width}");
        seen[answer.err().unwrap_or(0) as usize] += 1;
    }
    assert!(seen.iter().all(|&times| times > 10_000), "{seen:?}");
}

#[test]
fn positions_at_and_past_the_end() {
    for at in [3, 4, 1 << 32, usize::MAX - 10, usize::MAX - 9, usize::MAX - 1, usize::MAX] {
        for width in [0, 7, 32, 64, u32::MAX] {
            assert_eq!(Tested.decode(&[0, 0, 0], at, width), Err(1));
            assert_eq!(Tested.decode(&[], at, width), Err(1));
        }
        let mut out = [1, 2, 3];
        for value in [0, u64::MAX] {
            assert_eq!(Tested.encode(value, &mut out, at), Err(10));
            assert_eq!(Tested.encode(value, &mut [], at), Err(10));
        }
        assert_eq!(out, [1, 2, 3]);
    }
}

#[test]
fn a_number_that_does_not_fit_changes_no_byte() {
    for value in numbers() {
        let length = bytes_of(u128::from(value)).len();
        let mut out = vec![99; 3 + length];
        assert_eq!(Tested.encode(value, &mut out, 4), Err(10));
        assert_eq!(out, vec![99; 3 + length]);
        assert_eq!(Tested.encode(value, &mut out, 3), Ok(3 + length));
    }
}
