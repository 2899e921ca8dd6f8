//! The library's check against document 01's line, which the reference implementation folds over the bytes.

use fikrem::raw;
use generate::Random;

/// The highest check: after these bytes a word of FF has the highest sum.
const HIGHEST: [u8; 8] = [0, 0, 0, 0, 0, 0, 0x5E, 0x1C];

fn same(bytes: &[u8]) {
    let wanted = reference::file::check(bytes);
    assert_eq!(raw::check(bytes), u32::from(wanted), "{bytes:?}");
    assert_eq!(fikrem::check(bytes), wanted, "{bytes:?}");
}

#[test]
fn every_length_up_to_70() {
    let mut random = Random::new(170);
    for length in 0..=70 {
        same(&vec![0xFF; length]);
        same(&[&HIGHEST[..], &vec![0xFF; length]].concat());
        for _ in 0..200 {
            let bytes: Vec<u8> = (0..length).map(|_| random.next_u64() as u8).collect();
            same(&bytes);
        }
    }
}

/// A byte less than a word, a word and a byte more, of one word and of two.
#[test]
fn about_words() {
    let (full, counting) = ([0xFF; 17], std::array::from_fn::<u8, 17, _>(|place| place as u8));
    let lengths = [7, 8, 9, 15, 16, 17];
    assert_eq!(lengths.map(|length| fikrem::check(&full[..length])), [13893, 32623, 63200, 3577, 2251, 54595]);
    assert_eq!(lengths.map(|length| fikrem::check(&counting[..length])), [45719, 21532, 29969, 65398, 33926, 4706]);
    assert_eq!(fikrem::check(&HIGHEST), 65520);
    assert_eq!(fikrem::check(&[HIGHEST, [0xFF; 8]].concat()), 65520);
}
