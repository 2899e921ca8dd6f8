use super::cases;
use super::damage::old_form;
use differential::{Buffers, LibraryCall, Tally};
use fikrem::raw::ANSWER;
use generate::books::stored_form;
use generate::calls::{after, filling};
use generate::damage::{alter_byte, alter_byte_and_check};
use generate::ledgers::table_size;
use generate::{Book, Random, Request};

/// A file that is refused by 1, 2 or 3.
pub fn faulty(random: &mut Random, file: &[u8]) -> Vec<u8> {
    match random.within(0, 2) {
        0 => file[..file.len() - 1].to_vec(),
        1 => alter_byte(file, 5, file[5] ^ 1),
        _ => alter_byte_and_check(file, 5, file[5] ^ 1),
    }
}

/// A request with some of the faults that accept refuses by 4, 5, 7, 6, 8 and 9.
fn request(random: &mut Random, month: u16, schemes: u16) -> Request {
    let mut request = Request { month, ..Request::extension(random.edge_u32(0, 1_000_000_000)) };
    if random.once_in(4) {
        request.zone = 2;
    }
    if random.once_in(4) {
        let tier = random.index(5);
        (request.tiers[tier].mode, request.tiers[tier].bespoke_rate) = (2, 9_000);
    }
    if random.once_in(4) {
        request.month = month - 1;
    }
    request.scheme = random.choose(&[0, 0, 1, schemes, schemes + 1, u16::MAX]);
    request.month += random.choose(&[0, 0, 0, 83, 84]);
    request.mark = random.choose(&[0, 0, 0, 1]);
    request
}

/// Several faults at once, so that the first in document 01's orders counts; also a short table and a short output, the
/// last of all.
pub fn faults_at_once(tally: &mut Tally) {
    let mut random = Random::new(140);
    let ledgers = [(64, 512), (64, 300), (2, 512), (5, 40), (63, 63)]
        .map(|(schemes, entries)| after(&filling(&mut random, schemes, entries), entries));
    let book = Book::slip().encode();
    for _ in 0..cases(6_000) {
        let (mut ledger, parties) = ledgers[random.index(ledgers.len())].clone();
        if random.once_in(6) {
            ledger.connections = random.choose(&[999_999, 1_000_000, 1_000_000]);
        }
        let mut stored = stored_form(&ledger, &parties);
        if random.once_in(8) {
            let place = random.index(stored.len());
            stored = alter_byte_and_check(&stored, place, stored[place] ^ 0x80);
        }
        let mut request = request(&mut random, ledger.month, ledger.standing).encode();
        if random.once_in(6) {
            request = faulty(&mut random, &request);
        }
        let book = if random.once_in(6) { faulty(&mut random, &book) } else { book.clone() };
        let length = stored.len() + random.choose(&[0, 33, 60, 93]) - random.choose(&[0, 0, 1]);
        let buffers = || Buffers::of(length, 27, ANSWER);
        let (stored, table_size) = (&stored[..], table_size(&mut random, ledger.entries));
        tally.compare_on(&LibraryCall::Accept { stored, table_size, book: &book, request: &request }, buffers());
        let entry = random.choose(&[0, 1, ledger.entries, ledger.entries + 1, u32::MAX]);
        let standing = parties[0].credited;
        let amount = random.choose(&[0, 1, standing, standing + 1, u64::MAX]);
        tally.compare_on(&LibraryCall::PayOut { stored, table_size, entry, amount }, buffers());
        tally.compare_on(&LibraryCall::HandOver { stored, table_size, entry, person: 7 }, buffers());
        let month = ledger.month.saturating_add(random.choose(&[0, 83, 84])) - random.choose(&[0, 1]);
        tally.compare_on(&LibraryCall::Clear { stored, table_size, month }, buffers());
    }
}

/// Files of both forms with several faults: other letters, an unsound figure, a next number past its count plus one, a
/// damaged check, and a short output.
pub fn faults_of_files(tally: &mut Tally) {
    let mut random = Random::new(141);
    for _ in 0..cases(3_000) {
        let (mut ledger, parties) = after(&filling(&mut random, 2, 5), 5);
        let old = old_form(&ledger, &parties);
        ledger.next_scheme += random.choose(&[0, 0, 1]);
        ledger.next_entry += random.choose(&[0, 0, 1]);
        let mut files = [old, stored_form(&ledger, &parties)];
        for file in &mut files {
            if random.once_in(4) {
                // more than 1,000,000 connections
                *file = alter_byte_and_check(file, 12, 0xFF);
            }
            if random.once_in(4) {
                *file = alter_byte_and_check(file, 6, random.choose(b"NO2"));
            }
            if random.once_in(6) {
                *file = faulty(&mut random, file);
            }
        }
        for file in &files {
            let length = files[random.index(2)].len() - random.choose(&[0, 0, 1]);
            tally.compare_on(&LibraryCall::MoveToNew { file }, Buffers::of(length, 0, ANSWER));
            tally.compare_on(&LibraryCall::MoveBack { file }, Buffers::of(length, 0, ANSWER));
        }
    }
}
