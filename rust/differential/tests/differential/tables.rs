use differential::{LibraryCall, Tally};
use fikrem::{raw, LONGEST_TABLE};
use generate::books::stored_form;
use generate::calls::{after, filling};
use generate::damage::{alter_byte, alter_byte_and_check};
use generate::{Book, Random, Request};
use reference::Ledger;

/// What a refusal of the stored ledger itself adds to its number.
const OF_LEDGER: u64 = 128;

/// By each call; whether each finds that the table is too short for the entries.
fn too_short(tally: &mut Tally, stored: &[u8], table_size: usize, request: &[u8]) -> bool {
    let book = &Book::slip().encode()[..];
    let calls = [
        LibraryCall::JudgeLedger { stored, table_size },
        LibraryCall::Accept { stored, table_size, book, request },
        LibraryCall::PayOut { stored, table_size, entry: 1, amount: 0 },
        LibraryCall::HandOver { stored, table_size, entry: 1, person: 7 },
        LibraryCall::Clear { stored, table_size, month: u16::MAX },
    ];
    let found = calls.map(|call| tally.compare(&call).0 == OF_LEDGER + raw::NO_ENTRY_LEFT);
    assert_eq!(found, [found[0]; 5], "the calls differ on a table of {table_size}");
    found[0]
}

/// Stored ledgers of few and of many entries, on tables about their entries, of every small length and about 512.
/// Sound ones, and such as are refused by 1, 2 and 3, which come before 9, and by 13, which comes after it.
pub fn every_length(tally: &mut Tally) {
    let mut random = Random::new(170);
    assert!(!too_short(tally, &stored_form(&Ledger::new(), &[]), 0, &Request::slip().encode()));
    for (schemes, entries) in [(1, 1), (1, 2), (2, 2), (2, 7), (5, 8), (3, 100), (64, 300), (1, 511), (64, 512)] {
        let (ledger, parties) = after(&filling(&mut random, schemes, entries), entries);
        let stored = stored_form(&ledger, &parties);
        let joining = Request { month: ledger.month, scheme: 1, ..Request::slip() }.encode();
        let unsound = alter_byte_and_check(&stored, 7 + 3 + 2, 0xFF); // more than 1,000,000 connections
        let about = (0..=10).chain(entries.saturating_sub(3)..=entries + 3).chain(508..=516);
        for table_size in about.chain([600, 1 << 32, usize::MAX]) {
            let short = table_size.min(LONGEST_TABLE) < entries;
            assert_eq!(too_short(tally, &stored, table_size, &joining), short);
            assert_eq!(too_short(tally, &unsound, table_size, &joining), short);
            for refused in [&stored[1..], &alter_byte(&stored, 20, 1), &alter_byte_and_check(&stored, 3, b'p')] {
                assert!(!too_short(tally, refused, table_size, &joining));
            }
        }
    }
}
