//! Each refusal from 6 on, the orders of refusals at their boundaries, and that a refusal changes nothing.

use generate::calls::{after, filling};
use generate::damage::alter_byte;
use generate::{Book, Random, Request};
use reference::*;

fn call(number: u8) -> Refusal {
    Refusal { number, file: 0, place: 0 }
}

/// A ledger of so many schemes and entries on a table of this length.
fn filled(schemes: usize, entries: usize, table_length: usize) -> (Ledger, Vec<Party>) {
    after(&filling(&mut Random::new(6), schemes, entries), table_length)
}

/// What accept answers; refused, it has changed nothing.
fn answer(ledger: &mut Ledger, parties: &mut [Party], book: &[u8], request: &[u8]) -> Result<Answer, Refusal> {
    let before = (ledger.clone(), parties.to_vec());
    let answer = accept(ledger, parties, book, request).map(|accepted| accepted.1);
    if answer.is_err() {
        assert_eq!((&before.0, before.1.as_slice()), (&*ledger, &*parties));
    }
    answer
}

fn book() -> Vec<u8> {
    Book::slip().encode()
}

fn opening() -> Request {
    Request::extension(6_000_000)
}

/// A joiner that opens nothing.
fn joiner(scheme: u16) -> Request {
    Request { scheme, ..Request::of_nothing() }
}

/// The answer of a joiner that opens nothing.
fn answered(joining: Joining) -> Result<Answer, Refusal> {
    Ok(Answer { joining: Some(joining), opened: None })
}

/// The answer to a joiner that became this entry and opens nothing.
fn became(answer: Result<Answer, Refusal>, wanted: u32) -> bool {
    matches!(answer, Ok(Answer { joining: Some(Joining::Joined { entry, .. }), opened: None }) if entry == wanted)
}

const PLAIN: Result<Answer, Refusal> = Ok(Answer { joining: None, opened: None });

#[test]
fn words_for_every_number() {
    let words: Vec<_> = (1..=16).map(|number| call(number).words()).collect();
    assert_eq!(words[0], "a field can't stand at the place, or the file's last five bytes are wrong");
    assert_eq!(words[13], "the output, the answer or the figures are too short");
    assert_eq!(words[15], "the next scheme or entry number is not its count plus one");
    assert!(words.iter().enumerate().all(|(index, word)| !words[..index].contains(word)));
    assert_eq!([0, 17, 255].map(|number| call(number).words()), ["no refusal"; 3]);
}

#[test]
fn six_scheme_never_opened() {
    let (mut ledger, mut parties) = filled(2, 2, 3);
    for (scheme, wanted) in [(3, true), (u16::MAX, true), (2, false)] {
        let answer = answer(&mut ledger, &mut parties, &book(), &joiner(scheme).encode());
        assert_eq!(answer == Err(call(6)), wanted, "scheme {scheme}");
    }
}

#[test]
fn seven_month_before_the_last() {
    let (mut ledger, mut parties) = filled(1, 1, 1);
    let of_month = |month| Request { month, ..Request::of_nothing() }.encode();
    assert_eq!(answer(&mut ledger, &mut parties, &book(), &of_month(24_314)), Err(call(7)));
    assert_eq!(answer(&mut ledger, &mut parties, &book(), &of_month(24_315)), PLAIN);
    assert_eq!(answer(&mut ledger, &mut parties, &book(), &of_month(24_316)), PLAIN);
    assert_eq!(answer(&mut ledger, &mut parties, &book(), &of_month(24_315)), Err(call(7)));
}

#[test]
fn eight_all_schemes_taken() {
    let (mut ledger, mut parties) = filled(63, 63, 65);
    let request = opening().encode();
    assert_eq!(answer(&mut ledger, &mut parties, &book(), &request), Ok(Answer { joining: None, opened: Some(64) }));
    assert_eq!(answer(&mut ledger, &mut parties, &book(), &request), Err(call(8)));
    // what opens none is still accepted
    assert_eq!(answer(&mut ledger, &mut parties, &book(), &Request::slip().encode()), PLAIN);
    let joiner = joiner(64).encode();
    assert!(became(answer(&mut ledger, &mut parties, &book(), &joiner), 65));
    // 8 comes before 9
    assert_eq!(answer(&mut ledger, &mut parties, &book(), &request), Err(call(8)));
    assert_eq!(answer(&mut ledger, &mut parties, &book(), &joiner), Err(call(9)));
}

#[test]
fn nine_no_entry_left() {
    assert_eq!(answer(&mut Ledger::new(), &mut [], &book(), &opening().encode()), Err(call(9)));
    let (mut ledger, mut parties) = filled(1, 511, 600);
    let joiner = joiner(1);
    assert!(became(answer(&mut ledger, &mut parties, &book(), &joiner.encode()), 512));
    assert_eq!(answer(&mut ledger, &mut parties, &book(), &joiner.encode()), Err(call(9)));
    assert_eq!(answer(&mut ledger, &mut parties, &book(), &opening().encode()), Err(call(9)));
    // small and ended need none
    let small = Request { capacity: 1, ..joiner };
    let book_of_minimum = Book { minimum: 1_000_000, ..Book::slip() }.encode();
    let mut one = [Party::default()];
    let mut full = Ledger::new();
    answer(&mut full, &mut one, &book_of_minimum, &opening().encode()).unwrap();
    assert_eq!(answer(&mut full, &mut one, &book(), &small.encode()), answered(Joining::Small));
    let ended = Request { month: 24_315 + 84, ..small };
    assert_eq!(answer(&mut full, &mut one, &book(), &ended.encode()), answered(Joining::Ended));
    assert_eq!((full.connections, full.entries, full.month), (3, 1, 24_399));
}

/// 13, book, request, 4, 5, 10, 7, 6, 8, 9: mistakes are taken away one after the other.
#[test]
fn order_of_accept() {
    let (mut ledger, mut parties) = filled(64, 512, 512);
    (ledger.connections, ledger.month) = (1_000_001, 24_316);
    let (bad_book, bad_request) = (alter_byte(&book(), 3, 0), alter_byte(&Request::slip().encode(), 3, 0));
    let mut request = Request { zone: 2, scheme: 65, ..opening() };
    (request.tiers[4].mode, request.tiers[3].mode) = (2, 2);
    request.tiers[3].bespoke_rate = 38_000;
    request.tiers[4].bespoke_rate = 10_000;
    let mut refused = |ledger: &mut Ledger, book: &[u8], request: &[u8]| {
        let refused = answer(ledger, &mut parties, book, request).unwrap_err();
        (refused.number, refused.file, refused.place)
    };
    assert_eq!(refused(&mut ledger, &bad_book, &bad_request), (13, 0, 0));
    ledger.connections = 1_000_000;
    assert_eq!(refused(&mut ledger, &bad_book, &bad_request), (2, 1, book().len() - 2));
    assert_eq!(refused(&mut ledger, &book(), &bad_request), (2, 2, bad_request.len() - 2));
    assert_eq!(refused(&mut ledger, &book(), &request.encode()), (4, 2, 0));
    request.zone = 1;
    assert_eq!(refused(&mut ledger, &book(), &request.encode()), (5, 2, 4));
    request.tiers[3].mode = 1;
    assert_eq!(refused(&mut ledger, &book(), &request.encode()), (5, 2, 5));
    request.tiers[4].mode = 0;
    assert_eq!(refused(&mut ledger, &book(), &request.encode()), (10, 0, 0));
    ledger.connections = 999_999;
    assert_eq!(refused(&mut ledger, &book(), &request.encode()), (7, 0, 0));
    request.month = 24_316;
    assert_eq!(refused(&mut ledger, &book(), &request.encode()), (6, 0, 0));
    request.scheme = 0;
    assert_eq!(refused(&mut ledger, &book(), &request.encode()), (8, 0, 0));
    request.scheme = 64;
    assert_eq!(refused(&mut ledger, &book(), &request.encode()), (8, 0, 0));
    request.mark = 1;
    assert_eq!(refused(&mut ledger, &book(), &request.encode()), (9, 0, 0));
    request.month = 24_315 + 84;
    assert_eq!(answer(&mut ledger, &mut parties, &book(), &request.encode()), answered(Joining::Ended));
    assert_eq!(ledger.connections, 1_000_000);
}

#[test]
fn pay_out_and_hand_over() {
    let (ledger, mut parties) = filled(1, 3, 5);
    let before = parties.clone();
    let standing = parties[0].credited;
    for entry in [0, 4, 5, 6, u32::MAX] {
        assert_eq!(pay_out(&ledger, &mut parties, entry, u64::MAX), Err(call(11)));
        assert_eq!(hand_over(&ledger, &mut parties, entry, 1), Err(call(11)));
    }
    assert_eq!(pay_out(&ledger, &mut parties, 1, standing + 1), Err(call(12)));
    assert_eq!(pay_out(&ledger, &mut parties, 1, u64::MAX), Err(call(12)));
    assert_eq!(pay_out(&ledger, &mut parties, 3, 1), Err(call(12)));
    assert_eq!(pay_out(&ledger, &mut parties, 3, 0), Ok(()));
    assert_eq!(parties, before);
    assert_eq!(pay_out(&ledger, &mut parties, 1, standing - 1), Ok(()));
    assert_eq!(pay_out(&ledger, &mut parties, 1, 2), Err(call(12)));
    assert_eq!(pay_out(&ledger, &mut parties, 1, 1), Ok(()));
    assert_eq!(hand_over(&ledger, &mut parties, 3, 77), Ok(()));
    let mut wanted = before;
    (wanted[0].paid_out, wanted[2].person) = (standing, 77);
    assert_eq!(parties, wanted);
}

/// Others: 13, 14. Reading: file order, 9 where the table is too short, 13.
#[test]
fn order_of_writing_and_reading() {
    let (ledger, parties) = filled(2, 4, 4);
    let length = 7 + 57 + 2 * 31 + 4 * 37 + 5;
    let mut output = vec![0xEE; length];
    assert_eq!(write_ledger(&ledger, &parties[..3], &mut []), Err(call(13)));
    assert_eq!(write_ledger(&ledger, &parties, &mut output[1..]), Err(call(14)));
    assert_eq!(output, vec![0xEE; length]);
    assert_eq!(write_ledger(&ledger, &parties, &mut output), Ok(length));

    let mut wrong = alter_byte(&output, 3, b'p');
    wrong[64 + 3 + 4 + 12] = 0xFF; // scheme 1's opening is after the last month
    let read = |file: &[u8], table_length| {
        let (mut read, mut table) = (filled(1, 1, 1).0, vec![Party::default(); table_length]);
        let before = (read.clone(), table.clone());
        let refused = read_ledger(&mut read, &mut table, file).unwrap_err();
        assert_eq!((read, table), before);
        (refused.number, refused.file, refused.place)
    };
    assert_eq!(read(&wrong[..length - 1], 3), (1, 1, 0));
    assert_eq!(read(&wrong, 3), (2, 1, length - 2));
    assert_eq!(read(&generate::damage::without_field(&wrong, 1), 3), (1, 1, 7));
    generate::damage::recheck(&mut wrong);
    assert_eq!(read(&wrong, 3), (3, 1, 3));
    let wrong = generate::damage::alter_byte_and_check(&wrong, 3, b'P');
    assert_eq!(read(&wrong, 3), (9, 0, 0));
    assert_eq!(read(&wrong, 4), (13, 0, 0));
}

/// A stored ledger of 65 schemes or 513 entries doesn't walk.
#[test]
fn stored_counts_past_their_limits() {
    for (schemes, entries) in [(64, 64), (1, 512)] {
        let (ledger, parties) = filled(schemes, entries, entries);
        let mut file = vec![0; 21_000];
        let length = write_ledger(&ledger, &parties, &mut file).unwrap();
        let field = if schemes == 64 { 2 + 63 } else { 3 + 511 };
        let twice = generate::damage::field_twice(&file[..length], field);
        let place = if schemes == 64 { 64 + 64 * 31 } else { length - 5 };
        let refused = read_ledger(&mut Ledger::new(), &mut vec![Party::default(); 600], &twice).unwrap_err();
        assert_eq!(refused, Refusal { number: 1, file: 1, place });
    }
}
