//! The reader and the writer of n and of records.

use super::number::bytes_of;
use super::{flow, Random};
use crate::Tested;
use interface::{Event, Implementation};

/// Fields at both sides of each length, and random ones of all lengths.
fn fields() -> Vec<u32> {
    let mut random = Random::new(21);
    let edges = (0..32).flat_map(|bit| [(1u32 << bit) - 1, 1 << bit, (1 << bit) + 1]).chain([u32::MAX - 1, u32::MAX]);
    edges.chain((0..2000).map(|_| random.word() as u32 >> random.below(32))).collect()
}

/// The bytes of a field.
fn bytes_of_field(field: u32) -> Vec<u8> {
    bytes_of(u128::from(field))
}

/// The bytes of a record.
fn bytes_of_record(event: Event) -> Vec<u8> {
    match event {
        Event::Enable(flow) => [0, flow.number, flow.from, flow.to].into_iter().flat_map(bytes_of_field).collect(),
        Event::Disable(number) => [1, number].into_iter().flat_map(bytes_of_field).collect(),
    }
}

/// Events with such fields, every third of them a disable.
fn events() -> Vec<Event> {
    let fields = fields();
    let mut random = Random::new(22);
    let mut any = || random.one_of(&fields);
    let mut event = |round| match round % 3 {
        0 => Event::Disable(any()),
        _ => Event::Enable(flow(any(), any(), any())),
    };
    (0..3000).map(&mut event).collect()
}

#[test]
fn heads_there_and_back() {
    for n in fields() {
        let bytes = bytes_of_field(n);
        let mut out = [99; 7];
        assert_eq!(Tested.write_head(n, &mut out), Ok(bytes.len()));
        assert_eq!(out[..bytes.len()], bytes);
        assert!(out[bytes.len()..].iter().all(|&byte| byte == 99));
        assert_eq!(Tested.read_head(&out), Ok((n, bytes.len())));
        for cut in 0..bytes.len() {
            assert_eq!(Tested.read_head(&bytes[..cut]), Err(1));
            let mut short = vec![99; cut];
            assert_eq!(Tested.write_head(n, &mut short), Err(10));
            assert_eq!(short, vec![99; cut]);
        }
    }
}

#[test]
fn heads_that_are_refused_or_not_judged() {
    let long: [&[u8]; 4] = [&[128, 0], &[133, 128, 0], &[255, 255, 255, 255, 16], &[128, 128, 128, 128, 128, 1]];
    for bytes in long {
        assert_eq!(Tested.read_head(bytes), Err(2));
    }
    assert_eq!(Tested.read_head(&[]), Err(1));
    assert_eq!(Tested.read_head(&[0, 9]), Ok((0, 1)));
    assert_eq!(Tested.read_head(&[129, 2, 9]), Ok((257, 2)));
    assert_eq!(Tested.read_head(&[255, 255, 255, 255, 15]), Ok((u32::MAX, 5)));
    assert_eq!(Tested.write_head(0, &mut [99]), Ok(1));
    assert_eq!(Tested.write_head(u32::MAX, &mut [0; 5]), Ok(5));
}

#[test]
fn the_lengths_of_records() {
    for event in events() {
        assert_eq!(Tested.record_len(event), bytes_of_record(event).len(), "{event:?}");
    }
    assert_eq!(Tested.record_len(Event::Disable(0)), 2);
    assert_eq!(Tested.record_len(Event::Disable(u32::MAX)), 6);
    assert_eq!(Tested.record_len(Event::Enable(flow(127, 0, 128))), 5);
    assert_eq!(Tested.record_len(Event::Enable(flow(u32::MAX, u32::MAX, u32::MAX))), 16);
}

#[test]
fn records_there_and_back() {
    for event in events() {
        let bytes = bytes_of_record(event);
        let mut out = [99; 20];
        assert_eq!(Tested.write_record(event, &mut out, 3), Ok(3 + bytes.len()));
        assert_eq!(out[3..3 + bytes.len()], bytes);
        assert!(out[..3].iter().chain(&out[3 + bytes.len()..]).all(|&byte| byte == 99));
        assert_eq!(Tested.read_record(&out, 3), Ok((event, 3 + bytes.len())));
        for cut in 0..bytes.len() {
            assert_eq!(Tested.read_record(&bytes[..cut], 0), Err(1));
            let mut short = vec![99; cut];
            assert_eq!(Tested.write_record(event, &mut short, 0), Err(10));
            assert_eq!(short, vec![99; cut]);
        }
    }
}

#[test]
fn the_order_of_reading() {
    let cases: [(&[u8], u32); 16] = [
        (&[], 1),
        (&[128], 1),
        (&[128, 0], 2),
        (&[129, 0, 5], 2),
        (&[2], 3),
        (&[2, 128, 0], 3),
        (&[127], 3),
        (&[255, 255, 255, 255, 15], 3),
        (&[255, 255, 255, 255, 16], 2),
        (&[0], 1),
        (&[0, 128, 0], 2),
        (&[0, 1, 128, 0], 2),
        (&[0, 1, 1, 128], 1),
        (&[0, 1, 1, 128, 0], 2),
        (&[1, 128], 1),
        (&[1, 255, 255, 255, 255, 31], 2),
    ];
    for (bytes, refusal) in cases {
        assert_eq!(Tested.read_record(bytes, 0), Err(refusal), "{bytes:?}");
    }
}

#[test]
fn the_reader_does_not_judge_containers() {
    assert_eq!(Tested.read_record(&[0, 0, 7, 7], 0), Ok((Event::Enable(flow(0, 7, 7)), 4)));
    let bytes = [0, 255, 255, 255, 255, 15, 255, 255, 255, 255, 15, 255, 255, 255, 255, 15];
    assert_eq!(Tested.read_record(&bytes, 0), Ok((Event::Enable(flow(u32::MAX, u32::MAX, u32::MAX)), 16)));
}

#[test]
fn positions_at_and_past_the_end() {
    for at in [3, 4, 1 << 32, usize::MAX - 5, usize::MAX - 1, usize::MAX] {
        let mut out = [1, 2, 3];
        assert_eq!(Tested.read_record(&[0, 0, 0], at), Err(1));
        for value in [0, u32::MAX] {
            assert_eq!(Tested.write_record(Event::Disable(value), &mut out, at), Err(10));
            assert_eq!(Tested.write_record(Event::Enable(flow(value, value, value)), &mut out, at), Err(10));
        }
        assert_eq!(out, [1, 2, 3]);
    }
}
