//! The stored form: its bytes, round trips, the places that writing and reading leave alone.

use generate::calls::{after, calls, filling};
use generate::fields::File;
use generate::Random;
use reference::stored::NEW;
use reference::{read_ledger, write_ledger, Ledger, Party, Refusal, Scheme};

/// A party that no call writes.
const MARKED: Party =
    Party { number: 0, scheme: 0xABCD, person: 1, capacity: 0, put_in: u32::MAX, credited: 7, paid_out: u64::MAX };

fn u64s(numbers: &[u64]) -> Vec<u8> {
    numbers.iter().flat_map(|number| number.to_be_bytes()).collect()
}

/// Cost 6,000,000, fee and minimum 20,000; a second party of half the first one's capacity joined. A scheme of three
/// parties was cleared.
fn one_scheme() -> (Ledger, [Party; 2]) {
    let mut ledger = Ledger {
        month: 24_320,
        connections: 2,
        charged: 7_500_000,
        borne: 900_000,
        next_scheme: 4,
        next_entry: 7,
        cleared_collected: 9_000,
        cleared_paid_out: 8_600,
        cleared_fees: 400,
        standing: 1,
        entries: 2,
        ..Ledger::new()
    };
    let (number, fees) = (3, 20_000);
    ledger.schemes[0] =
        Scheme { number, cost: 6_000_000, fee: 20_000, minimum: 20_000, opening: 24_315, term: 84, fees };
    let first = Party {
        number: 4,
        scheme: 3,
        person: 4_711,
        capacity: 10_000,
        put_in: 6_000_000,
        credited: 1_980_000,
        paid_out: 0,
    };
    let second = Party { number: 6, person: 4_712, capacity: 5_000, put_in: 2_000_000, credited: 0, ..first };
    (ledger, [first, second])
}

fn one_scheme_file() -> Vec<u8> {
    File::new()
        .field(1)
        .bytes(b"PIO2")
        .field(2)
        .u16(24_320)
        .u32(2)
        .bytes(&u64s(&[7_500_000, 900_000]))
        .u32s(&[4, 7])
        .bytes(&u64s(&[9_000, 8_600, 400]))
        .field(3)
        .u32s(&[3, 6_000_000, 20_000, 20_000])
        .u16s(&[24_315, 84])
        .bytes(&u64s(&[20_000]))
        .field(4)
        .u32(4)
        .u16(3)
        .u32s(&[4_711, 10_000, 6_000_000])
        .bytes(&u64s(&[1_980_000, 0]))
        .field(4)
        .u32(6)
        .u16(3)
        .u32s(&[4_712, 5_000, 2_000_000])
        .bytes(&u64s(&[0, 0]))
        .close()
}

#[test]
fn the_forms_bytes() {
    let (ledger, parties) = one_scheme();
    let mut output = [0xEE; 250];
    let length = write_ledger(&ledger, &parties, &mut output).unwrap();
    assert_eq!(output[..length], one_scheme_file());
    assert_eq!(length, 7 + 57 + 31 + 2 * 37 + 5);
    assert!(output[length..].iter().all(|&byte| byte == 0xEE));
}

#[test]
fn a_new_ledger() {
    let mut output = [0; 69];
    let refused = Refusal { number: 14, file: 0, place: 0 };
    assert_eq!(write_ledger(&Ledger::new(), &[], &mut output[1..]), Err(refused));
    assert_eq!(output, [0; 69]);
    assert_eq!(write_ledger(&Ledger::new(), &[], &mut output), Ok(69));
    let (mut ledger, _) = one_scheme();
    read_ledger(&mut ledger, &mut [], &output).unwrap();
    assert_eq!(ledger, Ledger::new());
}

/// A written ledger reads back as itself, and an accepted stored ledger writes back as the same bytes.
fn round_trip(ledger: &Ledger, parties: &[Party]) {
    let entries = ledger.entries as usize;
    let length = NEW.length(ledger.standing.into(), entries);
    let mut file = vec![0; length];
    assert_eq!(write_ledger(ledger, parties, &mut file), Ok(length));
    assert_eq!(write_ledger(ledger, parties, &mut vec![0; length - 1]).unwrap_err().number, 14);
    let (mut read, _) = one_scheme();
    let mut table = vec![MARKED; entries + 3];
    read_ledger(&mut read, &mut table, &file).unwrap();
    assert_eq!(&read, ledger);
    assert_eq!(table[..entries], parties[..entries]);
    assert_eq!(table[entries..], [MARKED; 3]);
    let mut again = vec![0xEE; length + 9];
    assert_eq!(write_ledger(&read, &table, &mut again), Ok(length));
    assert_eq!(again[..length], file);
    assert_eq!(again[length..], [0xEE; 9]);
    let mut exact = vec![MARKED; entries];
    read_ledger(&mut read, &mut exact, &file).unwrap();
    if entries > 0 {
        assert_eq!(read_ledger(&mut read, &mut exact[1..], &file).unwrap_err().number, 9);
    }
}

#[test]
fn round_trips() {
    let mut random = Random::new(5);
    round_trip(&one_scheme().0, &one_scheme().1);
    for (schemes, entries) in [(1, 1), (1, 512), (64, 64), (64, 512), (7, 100)] {
        let (ledger, parties) = after(&filling(&mut random, schemes, entries), entries);
        assert_eq!((usize::from(ledger.standing), ledger.entries as usize), (schemes, entries));
        round_trip(&ledger, &parties);
    }
    for length in [0, 1, 5, 40, 200, 600] {
        for _ in 0..4 {
            let (ledger, parties) = after(&calls(&mut random, length, 150), length);
            round_trip(&ledger, &parties);
        }
    }
}
