//! Numbers at any place of any bytes.

use reference::{number_at, put_number};

const WIDTHS: [usize; 3] = [2, 4, 8];
/// No two bytes alike, none zero, the topmost bit both set and clear.
const BYTES: [u8; 10] = [0x81, 0x12, 0xF3, 0x24, 0x95, 0x36, 0xA7, 0x48, 0xB9, 0x5A];
const NUMBER: u64 = 0xF8E7_D6C5_B4A3_9281;

/// Every place near a length, the powers of two, so that no cut place goes unseen, and the topmost
/// nine.
fn places(length: usize) -> impl Iterator<Item = usize> {
    (0..=length + 9)
        .chain((5..usize::BITS).map(|bit| 1 << bit))
        .chain(usize::MAX - 8..=usize::MAX)
}

/// The place of byte `index` of a number, if it is there; reckoned where it cannot wrap.
fn place_of(at: usize, index: usize, length: usize) -> Option<usize> {
    let place = at as u128 + index as u128;
    (place < length as u128).then_some(place as usize)
}

#[test]
fn reads_inside() {
    assert_eq!(number_at(&BYTES, 0, 2), 0x1281);
    assert_eq!(number_at(&BYTES, 3, 2), 0x9524);
    assert_eq!(number_at(&BYTES, 8, 2), 0x5AB9);
    assert_eq!(number_at(&BYTES, 0, 4), 0x24F3_1281);
    assert_eq!(number_at(&BYTES, 1, 4), 0x9524_F312);
    assert_eq!(number_at(&BYTES, 6, 4), 0x5AB9_48A7);
    assert_eq!(number_at(&BYTES, 0, 8), 0x48A7_3695_24F3_1281);
    assert_eq!(number_at(&BYTES, 1, 8), 0xB948_A736_9524_F312);
    assert_eq!(number_at(&BYTES, 2, 8), 0x5AB9_48A7_3695_24F3);
    assert_eq!(number_at(&[0xFF; 8], 0, 2), 0xFFFF);
    assert_eq!(number_at(&[0xFF; 8], 0, 4), 0xFFFF_FFFF);
    assert_eq!(number_at(&[0xFF; 8], 0, 8), u64::MAX);
}

#[test]
fn reads_zeros_past_the_end() {
    assert_eq!(number_at(&BYTES, 9, 2), 0x5A);
    assert_eq!(number_at(&BYTES, 7, 4), 0x5A_B948);
    assert_eq!(number_at(&BYTES, 8, 4), 0x5AB9);
    assert_eq!(number_at(&BYTES, 9, 4), 0x5A);
    assert_eq!(number_at(&BYTES, 3, 8), 0x5A_B948_A736_9524);
    assert_eq!(number_at(&BYTES, 4, 8), 0x5AB9_48A7_3695);
    assert_eq!(number_at(&BYTES, 5, 8), 0x5A_B948_A736);
    assert_eq!(number_at(&BYTES, 6, 8), 0x5AB9_48A7);
    assert_eq!(number_at(&BYTES, 7, 8), 0x5A_B948);
    assert_eq!(number_at(&BYTES, 8, 8), 0x5AB9);
    assert_eq!(number_at(&BYTES, 9, 8), 0x5A);
    for width in WIDTHS {
        for at in places(BYTES.len()).filter(|&at| at >= BYTES.len()) {
            assert_eq!(number_at(&BYTES, at, width), 0, "{at} {width}");
        }
        for at in places(0) {
            assert_eq!(number_at(&[], at, width), 0, "{at} {width}");
        }
    }
}

#[test]
fn reads_every_place_of_every_length() {
    for length in 0..=BYTES.len() {
        let bytes = &BYTES[..length];
        for at in places(length) {
            for width in 0..=8 {
                let expected = (0..width)
                    .filter_map(|index| Some((index, place_of(at, index, length)?)))
                    .map(|(index, place)| u64::from(bytes[place]) << (8 * index))
                    .sum::<u64>();
                let read = number_at(bytes, at, width);
                assert_eq!(read, expected, "{length} {at} {width}");
            }
        }
    }
}

/// Ten bytes of `0x0F` after a write.
fn put(at: usize, width: usize) -> [u8; 10] {
    let mut out = [0x0F; 10];
    put_number(&mut out, at, NUMBER, width);
    out
}

#[test]
fn writes_inside() {
    const O: u8 = 0x0F;
    assert_eq!(put(0, 2), [0x81, 0x92, O, O, O, O, O, O, O, O]);
    assert_eq!(put(5, 2), [O, O, O, O, O, 0x81, 0x92, O, O, O]);
    assert_eq!(put(8, 2), [O, O, O, O, O, O, O, O, 0x81, 0x92]);
    assert_eq!(put(0, 4), [0x81, 0x92, 0xA3, 0xB4, O, O, O, O, O, O]);
    assert_eq!(put(3, 4), [O, O, O, 0x81, 0x92, 0xA3, 0xB4, O, O, O]);
    assert_eq!(put(6, 4), [O, O, O, O, O, O, 0x81, 0x92, 0xA3, 0xB4]);
    let first = [0x81, 0x92, 0xA3, 0xB4, 0xC5, 0xD6, 0xE7, 0xF8, O, O];
    assert_eq!(put(0, 8), first);
    let middle = [O, 0x81, 0x92, 0xA3, 0xB4, 0xC5, 0xD6, 0xE7, 0xF8, O];
    assert_eq!(put(1, 8), middle);
    let last = [O, O, 0x81, 0x92, 0xA3, 0xB4, 0xC5, 0xD6, 0xE7, 0xF8];
    assert_eq!(put(2, 8), last);
}

#[test]
fn writes_only_what_is_there() {
    const O: u8 = 0x0F;
    assert_eq!(put(9, 2), [O, O, O, O, O, O, O, O, O, 0x81]);
    assert_eq!(put(7, 4), [O, O, O, O, O, O, O, 0x81, 0x92, 0xA3]);
    assert_eq!(put(8, 4), [O, O, O, O, O, O, O, O, 0x81, 0x92]);
    assert_eq!(put(9, 4), [O, O, O, O, O, O, O, O, O, 0x81]);
    let seven = [O, O, O, 0x81, 0x92, 0xA3, 0xB4, 0xC5, 0xD6, 0xE7];
    assert_eq!(put(3, 8), seven);
    let six = [O, O, O, O, 0x81, 0x92, 0xA3, 0xB4, 0xC5, 0xD6];
    assert_eq!(put(4, 8), six);
    assert_eq!(put(5, 8), [O, O, O, O, O, 0x81, 0x92, 0xA3, 0xB4, 0xC5]);
    assert_eq!(put(6, 8), [O, O, O, O, O, O, 0x81, 0x92, 0xA3, 0xB4]);
    assert_eq!(put(7, 8), [O, O, O, O, O, O, O, 0x81, 0x92, 0xA3]);
    assert_eq!(put(8, 8), [O, O, O, O, O, O, O, O, 0x81, 0x92]);
    assert_eq!(put(9, 8), [O, O, O, O, O, O, O, O, O, 0x81]);
    for width in WIDTHS {
        for at in places(10).filter(|&at| at >= 10) {
            assert_eq!(put(at, width), [O; 10], "{at} {width}");
        }
        for at in places(0) {
            put_number(&mut [], at, NUMBER, width);
        }
    }
}

#[test]
fn writes_every_place_of_every_length() {
    for length in 0..=BYTES.len() {
        for at in places(length) {
            for width in 0..=8 {
                let mut expected = BYTES[..length].to_vec();
                for index in 0..width {
                    if let Some(place) = place_of(at, index, length) {
                        expected[place] = (!NUMBER >> (8 * index)) as u8;
                    }
                }
                let mut out = BYTES[..length].to_vec();
                put_number(&mut out, at, !NUMBER, width);
                assert_eq!(out, expected, "{length} {at} {width}");
            }
        }
    }
}

#[test]
fn reads_back() {
    let numbers = [
        0,
        1,
        0xFF,
        0x100,
        0x8000,
        1 << 32,
        1 << 63,
        NUMBER,
        u64::MAX,
    ];
    for width in WIDTHS {
        for at in places(BYTES.len()) {
            let there = BYTES.len().saturating_sub(at).min(width);
            for number in numbers {
                let mut out = BYTES;
                put_number(&mut out, at, number, width);
                let kept = (u128::from(number) % (1u128 << (8 * there))) as u64;
                assert_eq!(number_at(&out, at, width), kept, "{at} {width} {number:#x}");
            }
        }
    }
}

#[test]
fn writes_back_what_was_read() {
    for width in WIDTHS {
        for at in places(BYTES.len()) {
            let mut out = BYTES;
            put_number(&mut out, at, number_at(&BYTES, at, width), width);
            assert_eq!(out, BYTES, "{at} {width}");
        }
    }
}

#[test]
fn wider_counts_as_eight() {
    for width in [9, 16, usize::MAX] {
        for at in places(BYTES.len()) {
            assert_eq!(number_at(&BYTES, at, width), number_at(&BYTES, at, 8));
            assert_eq!(put(at, width), put(at, 8));
        }
    }
}
