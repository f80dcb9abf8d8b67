//! The class of numbers: values at the ends of every width and group, written into outputs of all lengths, and read at
//! every width from their only form, from forms that are too long, and from bytes that are cut short.
use crate::cases::{Run, FAR};
use crate::inputs::{Random, NUMBERS};
use crate::logs::{odd_number, put_wide};
use crate::pair::Checked;
use interface::{Event, Flow};

/// The widths that numbers are read at: all that differ, two more than there are bits, and those that are others in fewer bits.
pub const WIDTHS: [u32; 75] = widths();
/// The widths at which the last group differs.
const WIDEST: usize = 64;
/// The values at the ends of the widths: for each but the last the greatest of its bits and one more.
const ENDS: usize = 2 * WIDEST + 1;
/// The values of drawn width.
const DRAWN: usize = 20;
/// The cases of this class.
pub const CASES: usize = NUMBERS.len() + 3 + WIDEST + 1 + ENDS + DRAWN;

/// 0 to 66, then the others.
const fn widths() -> [u32; 75] {
    let far = [67, 95, 96, 127, 128, 256 + 32, 1 << 31, u32::MAX];
    let mut list = [0; 75];
    let mut place = 0;
    while place < 75 {
        list[place] = if place < 67 { place as u32 } else { far[place - 67] };
        place += 1;
    }
    list
}

/// A value of 32 bits in all places, all last bytes of a width, or a value of up to 64 bits at all widths.
pub fn numbers(run: &mut Run, random: &mut Random, case: usize) -> Checked<()> {
    if let Some(value) = NUMBERS.get(case) {
        return number_32(run, random, *value);
    }
    let case = case - NUMBERS.len();
    if case < 3 {
        return fifth_bytes(run, [128, 129, 255][case]);
    }
    match case - 3 {
        width if width <= WIDEST => last_bytes(run, width as u32),
        place if place - WIDEST - 1 < ENDS => wide_number(run, random, end_of(place - WIDEST - 1)),
        _ => {
            let value = random.draw() >> random.below(64);
            wide_number(run, random, value)
        }
    }
}

/// The greatest value of a width at even places, one more at odd ones.
fn end_of(place: usize) -> u64 {
    let more = 1_u128 << (place / 2);
    if place.is_multiple_of(2) { (more - 1) as u64 } else { more as u64 }
}

/// A value of 32 bits read and written in all places, as n, and as the fields of a record.
fn number_32(run: &mut Run, random: &mut Random, value: u32) -> Checked<()> {
    for length in 0..=8 {
        let out = random.bytes(length);
        for at in (0..=length + 2).chain(FAR) {
            run.pair.input();
            run.pair.encode(u64::from(value), &out, at)?;
        }
        run.pair.write_head(value, &out)?;
    }
    for bytes in forms(random, u64::from(value)) {
        read_everywhere(run, &bytes)?;
    }
    for _ in 0..20 {
        let odd = odd_number(random, value);
        read_everywhere(run, &odd)?;
    }
    for [number, from, to] in [[value, 0, 0], [0, value, 0], [0, 0, value], [value; 3]] {
        run.pair.record_len(Event::Enable(Flow { number, from, to }))?;
    }
    run.pair.record_len(Event::Disable(value))
}

/// Reads the number and the record at every position, past the end and far past it, and n.
fn read_everywhere(run: &mut Run, bytes: &[u8]) -> Checked<()> {
    for at in (0..=bytes.len() + 2).chain(FAR) {
        run.pair.input();
        run.pair.decode(bytes, at, 32)?;
        run.pair.read_record(bytes, at)?;
    }
    run.pair.read_head(bytes)
}

/// All fifth bytes after four equal groups, alone and with a byte after them.
fn fifth_bytes(run: &mut Run, group: u8) -> Checked<()> {
    for fifth in 0..=255 {
        for tail in [&[][..], &[0], &[1], &[255]] {
            let mut bytes = vec![group, group, group, group, fifth];
            bytes.extend(tail);
            run.pair.input();
            run.pair.decode(&bytes, 0, 32)?;
            run.pair.read_head(&bytes)?;
            bytes.insert(0, 1);
            run.pair.read_record(&bytes, 0)?;
            run.pair.decode(&bytes, 1, 32)?;
        }
    }
    Ok(())
}

/// All last bytes that numbers of this width can have, after equal groups.
fn last_bytes(run: &mut Run, width: u32) -> Checked<()> {
    let groups = width.max(1).div_ceil(7) as usize;
    for last in 0..=255 {
        let mut bytes = vec![if (width + u32::from(last)).is_multiple_of(2) { 128 } else { 255 }; groups - 1];
        bytes.push(last);
        run.pair.input();
        run.pair.decode(&bytes, 0, width)?;
    }
    Ok(())
}

/// A value written into outputs of lengths around its need; its only form read at every width and at every position, the
/// others at the widths around its own.
fn wide_number(run: &mut Run, random: &mut Random, value: u64) -> Checked<()> {
    let list = forms(random, value);
    let (need, bits) = (list[0].len(), 64 - value.leading_zeros());
    for length in [0, need - 1, need, need + 1, need + 3] {
        let out = random.bytes(length);
        for at in (0..=length + 2).chain(FAR) {
            run.pair.input();
            run.pair.encode(value, &out, at)?;
        }
    }
    for width in WIDTHS {
        run.pair.input();
        run.pair.decode(&list[0], 0, width)?;
    }
    for at in (1..=need + 2).chain(FAR) {
        run.pair.decode(&list[0], at, random.pick(&WIDTHS))?;
    }
    for bytes in &list[1..] {
        for width in [bits.saturating_sub(1), bits, bits + 1, bits + 7, 64, random.pick(&WIDTHS)] {
            run.pair.input();
            run.pair.decode(bytes, 0, width)?;
        }
        let begin = random.below(9);
        let later = [random.bytes(begin), bytes.clone()].concat();
        run.pair.decode(&later, begin, random.pick(&WIDTHS))?;
    }
    Ok(())
}

/// The only form of a number first, then it with a byte after it, cut short at each byte, and lengthened.
fn forms(random: &mut Random, value: u64) -> Vec<Vec<u8>> {
    let mut bytes = Vec::new();
    put_wide(&mut bytes, value);
    let mut list = vec![bytes.clone(), [&bytes[..], &[random.byte()]].concat()];
    list.extend((0..bytes.len()).map(|cut| bytes[..cut].to_vec()));
    let last = bytes.len() - 1;
    bytes[last] |= 128;
    let tails: [&[u8]; 7] = [&[0], &[1], &[128], &[128, 0], &[128, 128, 0], &[128, 1], &[255, 127]];
    list.extend(tails.iter().map(|tail| [&bytes[..], tail].concat()));
    list
}

#[cfg(test)]
mod tests {
    use super::*;

    /// Every width from 0 to 66 is asked for, and some far above.
    #[test]
    fn every_width_is_there() {
        assert!((0..=66).all(|width| WIDTHS[width as usize] == width));
        assert!(WIDTHS[67..].iter().all(|width| *width > 66) && WIDTHS.contains(&u32::MAX));
    }

    /// The ends are 0, 1 and for each width its greatest value and the one after it.
    #[test]
    fn ends_are_those_of_the_widths() {
        let ends: Vec<u64> = (0..ENDS).map(end_of).collect();
        assert_eq!((ends[0], ends[1], ends[14], ends[15], ends[128]), (0, 1, 127, 128, u64::MAX));
        assert!((0..64).all(|width| ends[2 * width].checked_add(1) == Some(ends[2 * width + 1])));
    }

    /// The first form is the only right one: no other of the list that is as long is the same.
    #[test]
    fn the_first_form_is_the_shortest() {
        let list = forms(&mut Random::new(1, 0, 0), 300);
        assert_eq!(list[0], [172, 2]);
        assert!(list[2..].iter().all(|form| *form != list[0]) && list.contains(&vec![172, 130, 0]) && list.contains(&vec![172]));
    }
}
