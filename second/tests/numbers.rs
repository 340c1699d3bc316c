//! Numbers: their spellings, and every way that one can be refused.

use second::number::{read_number, write_number};

const PRINTED: [(u32, &[u8]); 9] = [
    (0, &[0x00]),
    (127, &[0x7F]),
    (128, &[0x80, 0x01]),
    (255, &[0xFF, 0x01]),
    (16_383, &[0xFF, 0x7F]),
    (16_384, &[0x80, 0x80, 0x01]),
    (65_535, &[0xFF, 0xFF, 0x03]),
    (65_536, &[0x80, 0x80, 0x04]),
    (2_097_151, &[0xFF, 0xFF, 0x7F]),
];

#[test]
fn printed_spellings() {
    for (value, bytes) in PRINTED {
        assert_eq!(write_number(value), bytes);
        assert_eq!(read_number(bytes), Ok((value, bytes.len())));
    }
}

#[test]
fn every_number_reads_back_as_itself_whatever_follows() {
    for value in 0..=2_097_151 {
        let mut bytes = write_number(value);
        let length = bytes.len();
        assert_eq!(
            length,
            if value < 128 {
                1
            } else if value < 16_384 {
                2
            } else {
                3
            }
        );
        bytes.push(0xFF);
        assert_eq!(read_number(&bytes), Ok((value, length)));
    }
}

#[test]
fn every_three_bytes_that_read_are_the_one_spelling() {
    for word in 0..1u32 << 24 {
        let bytes = [word as u8, (word >> 8) as u8, (word >> 16) as u8];
        match read_number(&bytes) {
            Ok((value, length)) => assert_eq!(write_number(value), bytes[..length]),
            Err(number) => assert_eq!(number, 21),
        }
    }
}

#[test]
fn ends_inside_a_number() {
    for bytes in [&[][..], &[0x80], &[0xFF], &[0x80, 0x80], &[0xFF, 0xFF]] {
        assert_eq!(read_number(bytes), Err(20));
    }
}

#[test]
fn not_shortest_or_too_large() {
    let wrong: [&[u8]; 9] = [
        &[0x80, 0x00],
        &[0xFF, 0x00],
        &[0x80, 0x80, 0x00],
        &[0xFF, 0xFF, 0x00],
        &[0x80, 0x80, 0x80],
        &[0xFF, 0xFF, 0xFF],
        &[0x80, 0x80, 0x80, 0x00],
        &[0x80, 0x80, 0x80, 0x01],
        &[0xFF, 0xFF, 0xFF, 0x7F],
    ];
    for bytes in wrong {
        assert_eq!(read_number(bytes), Err(21));
    }
}
