//! The leaves and stages, one by one.

mod common;

use common::*;
use reference::*;

#[test]
fn element_sizes() {
    let mut sized = 0;
    for code in 0..=u16::MAX {
        let line = TYPES.iter().find(|line| line.1 == code);
        let expected = line.filter(|line| line.2 > 0).map(|line| line.2 as u32);
        assert_eq!(element_size(code), expected);
        assert_eq!(is_string(code), code == 0x73);
        sized += usize::from(expected.is_some());
    }
    assert_eq!(sized, 9);
}

#[test]
fn names() {
    assert!(!name_ok(b""));
    assert!(name_ok(&[b'z'; 32]));
    assert!(!name_ok(&[b'z'; 33]));
    for byte in 0..=255u8 {
        let barred = byte == 0 || (0x41..=0x5A).contains(&byte);
        assert_eq!(name_ok(&[byte]), !barred);
        assert_eq!(name_ok(&[b'a', byte, b'a']), !barred);
    }
}

#[test]
fn numbered_names() {
    for n in 0..1000u32 {
        assert_eq!(numbered(b"c", format!("c{n}").as_bytes()), Some(n));
        assert_eq!(numbered(b"extra", format!("extra{n}").as_bytes()), Some(n));
        assert_eq!(numbered(b"u", format!("c{n}").as_bytes()), None);
        assert_eq!(numbered(b"c", format!("c0{n}").as_bytes()), None);
        assert_eq!(numbered(b"c", format!("c1{n:03}").as_bytes()), None);
    }
    for name in [
        "",
        "c",
        "c ",
        "c+1",
        "c-0",
        "c1 ",
        "cc1",
        "c1a",
        "ca1",
        "extra",
        "c9999999999",
    ] {
        assert_eq!(numbered(b"c", name.as_bytes()), None);
    }
    assert_eq!(numbered(b"", b"12"), Some(12));
}

#[test]
fn kinds() {
    let numbers = [
        0x746F6F72u32,
        0x6C646F6D,
        0x6873656D,
        0x68736C62,
        0x6C656B73,
        0x656E6F62,
        0x64686B69,
        0x74736E63,
        0x6D696E61,
        0x76727563,
        0x564F4D43,
        0x6669746E,
        0x6C74616D,
        0x656C6966,
        0x74736E69,
        0x6174656D,
    ];
    for number in numbers {
        assert!(known(number));
        assert!(may_stand(Some(number), kind(b"wagn")));
        assert!(!may_stand(Some(number), kind(b"root")));
        assert_eq!(may_stand(None, number), number == 0x746F6F72);
        for bit in 0..32 {
            let other = number ^ 1 << bit;
            assert_eq!(known(other), numbers.contains(&other));
        }
    }
    assert!(!known(0));
    assert!(!may_stand(None, kind(b"wagn")));
    assert!(!may_stand(Some(kind(b"wagn")), kind(b"wagn")));
    let file = kind(b"file");
    let parents = numbers.iter().filter(|&&p| may_stand(Some(p), file));
    assert_eq!(
        parents.collect::<Vec<_>>(),
        [&kind(b"matl"), &kind(b"inst")]
    );
    assert!(!may_stand(Some(kind(b"anim")), kind(b"skel")));
}

#[test]
fn steps() {
    let first = raw(0x7633, b"vp", 2, &[1; 24]);
    let second = raw(0x73, b"n", 1, b"abc\0");
    let body = [first, second, vec![9; 5]].concat();
    let expected = Step {
        number: 0,
        next: 34,
        name: (8, 10),
        data: (10, 34),
    };
    assert_eq!(step(&body, 0), expected);
    let expected = Step {
        number: 0,
        next: 47,
        name: (42, 43),
        data: (43, 47),
    };
    assert_eq!(step(&body, 34), expected);
    let refused = |number| Step {
        number,
        ..Step::default()
    };
    assert_eq!(step(&body, 47), refused(10));
    assert_eq!(step(&body, 52), refused(10));
    assert_eq!(step(&body, 53), refused(10));
    assert_eq!(step(&body, usize::MAX), refused(10));
    assert_eq!(step(&body, 1), refused(11));
    assert_eq!(step(&body[..46], 34), refused(10));
    assert_eq!(step(&[], 0), refused(10));
}

#[test]
fn long_strings_end_at_the_first_zero() {
    for length in [0, 1, 2, 62, 63, 64, 65, 127, 128, 129, 1000] {
        let mut data = vec![b'x'; length];
        data.push(0);
        data.extend([7; 70]);
        data.push(0);
        for shift in [0, 1, 13] {
            let body = [vec![0xFF; shift], raw(0x73, b"n", 1, &data)].concat();
            let step = step(&body, shift);
            let end = shift + 9 + length + 1;
            assert_eq!((step.number, step.next), (0, end));
            assert_eq!(step.data, (shift + 9, end));
        }
    }
}

#[test]
fn exact_bodies() {
    let one = raw(0x62, b"x", 3, &[0; 3]);
    assert!(body_exact(&[], 0));
    assert!(!body_exact(&[], 1));
    assert!(!body_exact(&one, 0));
    assert!(body_exact(&one, 1));
    assert!(!body_exact(&one, 2));
    assert!(!body_exact(&one[..11], 1));
    assert!(!body_exact(&[one.clone(), vec![0]].concat(), 1));
    // Equal names do not matter here.
    assert!(body_exact(&one.repeat(64), 64));
    assert!(!body_exact(&one.repeat(64), 63));
    assert!(!body_exact(&one.repeat(65), 65));
    assert!(!body_exact(&[], 65));
    assert!(!body_exact(&one, u32::MAX));
    assert!(!body_exact(&raw(0x61, b"x", 0, &[]), 1));
}

#[test]
fn indexes() {
    let one = raw(0x62, b"x", 3, &[0; 3]);
    let wrong = raw(0x61, b"x", 0, &[]);
    let indexed = |body: &[u8], count| {
        let index = index(body, count);
        (index.number, index.at, index.starts)
    };
    assert_eq!(indexed(&[], 0), (0, 0, vec![]));
    assert_eq!(indexed(&[], 1), (10, 0, vec![]));
    assert_eq!(indexed(&one.repeat(3), 2), (0, 24, vec![0, 12]));
    assert_eq!(indexed(&one.repeat(3)[..35], 3), (10, 24, vec![0, 12]));
    let body = [one.clone(), wrong, one.clone()].concat();
    assert_eq!(indexed(&body, 1), (0, 12, vec![0]));
    assert_eq!(indexed(&body, 3), (11, 12, vec![0]));
    assert_eq!(index(&one.repeat(65), 64).starts.len(), 64);
    assert_eq!(indexed(&one.repeat(65), 65), (9, 0, vec![]));
    assert_eq!(indexed(&[], u32::MAX), (9, 0, vec![]));
}

#[test]
fn rows_and_tables() {
    let numbers = [1, 2, 3, 4, 5, 6, 7, 8];
    for length in [0, 7, 8, 9, 15, 16, 17, 8191, 8192, 8193] {
        let table: Vec<u32> = (0..length as u32).map(|number| number | 1 << 31).collect();
        assert_eq!(is_whole(&table), length >= 8192);
        let far = [1 << 61, (1 << 61) + 1, usize::MAX / 8, usize::MAX];
        for at in (0..length / 8 + 2).chain(far) {
            let mut put = table.clone();
            put_row(&mut put, at, &numbers);
            if at < length / 8 {
                assert_eq!(row(&table, at).unwrap(), &table[at * 8..at * 8 + 8]);
                assert_eq!(row(&put, at), Some(&numbers));
                put[at * 8..at * 8 + 8].copy_from_slice(&table[at * 8..at * 8 + 8]);
            } else {
                assert_eq!(row(&table, at), None);
            }
            assert_eq!(put, table);
        }
        let mut cleared = table.clone();
        clear(&mut cleared);
        if length < 8192 {
            assert_eq!(cleared, table);
        } else {
            assert!(cleared[..8192].iter().all(|&number| number == 0));
            assert_eq!(cleared[8192..], table[8192..]);
        }
    }
}
