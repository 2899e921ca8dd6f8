//! Document 02, E9: the new stored form, the move to it and the way back.

use generate::calls::{after, calls, filling};
use generate::damage::{alter_byte, alter_byte_and_check, damaged, recheck, without_field};
use generate::ledgers::{altered, encode, encode_old, renumbered};
use generate::{Book, Books, Random, Request};
use reference::ledger::is_sound;
use reference::stored::{NEW, OLD};
use reference::{move_back, move_to_new, read_ledger, Ledger, Party, Refusal};

type Move = fn(&[u8], &mut [u8]) -> Result<usize, Refusal>;

fn refused(number: u8, file: u8, place: usize) -> Refusal {
    Refusal { number, file, place }
}

/// What a move writes into an output of just so many bytes more than the longest form, the rest of which it leaves.
fn moved(file: &[u8], by: Move) -> Result<Vec<u8>, Refusal> {
    let mut output = vec![0xEE; NEW.length(64, 512) + 3];
    match by(file, &mut output) {
        Ok(length) => {
            assert!(output[length..].iter().all(|&byte| byte == 0xEE), "output past the form is left");
            assert_eq!(by(file, &mut output[..length]), Ok(length));
            output.truncate(length);
            Ok(output)
        }
        Err(refusal) => {
            assert!(output.iter().all(|&byte| byte == 0xEE), "a refusal changes nothing");
            Err(refusal)
        }
    }
}

fn hex(bytes: &[u8]) -> String {
    bytes.iter().map(|byte| format!("{byte:02X}")).collect()
}

/// The stored ledgers of the cases: after the opening of a scheme, after a joiner built on, after the first was cleared.
fn cases() -> [Vec<u8>; 3] {
    let book = Book { credit_share: 0, ..Book::slip() };
    let request =
        |scheme, me, capacity| Request { person: 1, scheme, capacity, month: 24_315, ..Request::extension(me) };
    let mut books = Books::new(4);
    books.accept(&book, &request(0, 6_000_000, 10_000)).unwrap();
    let opened = books.stored();
    books.accept(&Book { fee: 7, minimum: 9, term: 100, ..book }, &request(1, 5_000_001, 5_000)).unwrap();
    let built_on = books.stored();
    books.pay_out(1, 1_980_000).unwrap();
    books.clear(24_399).unwrap();
    [opened, built_on, books.stored()]
}

#[test]
fn a_new_ledger() {
    let new = encode(&Ledger::new(), &[], &[]);
    let old = encode_old(&Ledger::new(), &[], &[]);
    assert_eq!((new.len(), old.len()), (69, 37));
    assert!(hex(&new).ends_with("FF0002B810") && hex(&old).ends_with("FF00025A72"));
    assert_eq!(moved(&old, move_to_new), Ok(new.clone()));
    assert_eq!(moved(&new, move_back), Ok(old));
}

#[test]
fn bytes_of_the_cases() {
    let [opened, built_on, cleared] = cases();
    let old = [&opened, &built_on].map(|file| moved(file, move_back).unwrap());
    let sizes_and_checks = |file: &[u8]| (file.len(), hex(&file[file.len() - 2..]));
    assert_eq!(sizes_and_checks(&opened), (137, "8CC8".to_string()));
    assert_eq!(sizes_and_checks(&old[0]), (97, "A378".to_string()));
    assert_eq!(sizes_and_checks(&built_on), (242, "5435".to_string()));
    assert_eq!(sizes_and_checks(&old[1]), (190, "DC26".to_string()));
    assert_eq!(sizes_and_checks(&cleared), (137, "A251".to_string()));
    let scheme = format!("03001C00000001005B8D8000004E2000004E205EFB0054{}", "00".repeat(8));
    let entry = format!("0400220000000100010000000100002710005B8D80{}", "00".repeat(16));
    assert!(hex(&opened).contains(&(scheme + &entry)));
    assert!(hex(&cleared[..64]).ends_with("000000030000000400000000001E848000000000001E36600000000000004E20"));
    for (new, old) in [&opened, &built_on].into_iter().zip(&old) {
        assert_eq!(moved(old, move_to_new).as_ref(), Ok(new));
    }
}

/// 16 where a number was cleared, also with an output of no bytes: it comes before 14.
#[test]
fn moving_back_what_was_cleared() {
    let [_, built_on, cleared] = cases();
    let ahead = refused(16, 0, 0);
    assert_eq!(moved(&cleared, move_back), Err(ahead));
    assert_eq!(move_back(&cleared, &mut []), Err(ahead));
    // each next number alone is one ahead
    let mut books = Books::new(3);
    read_ledger(&mut books.ledger, &mut books.parties, &built_on).unwrap();
    for (scheme, entry, wanted) in [(0, 0, None), (1, 0, Some(ahead)), (0, 1, Some(ahead)), (1, 1, Some(ahead))] {
        let mut books = books.clone();
        (books.ledger.next_scheme, books.ledger.next_entry) = (3 + scheme, 4 + entry);
        assert_eq!(moved(&books.stored(), move_back).err(), wanted, "scheme {scheme}, entry {entry} ahead");
    }
}

/// Old to new: 1, 2, 1, 3, 13, 14. Back: 1, 2, 1, 3, 13, 16, 14. The file is 1.
#[test]
fn orders() {
    let [_, new, _] = cases();
    let old = moved(&new, move_back).unwrap();
    for (file, by, other) in [(&old, move_to_new as Move, &new), (&new, move_back, &old)] {
        let unsound = alter_byte(file, 7 + 3 + 2, 0xFF);
        let mut wrong = alter_byte(&unsound, 3, b'p');
        let refusal = |file: &[u8]| by(file, &mut []).unwrap_err();
        assert_eq!(refusal(&wrong[..wrong.len() - 1]), refused(1, 1, 0));
        assert_eq!(refusal(&wrong), refused(2, 1, wrong.len() - 2));
        assert_eq!(refusal(&without_field(&wrong, 1)), refused(1, 1, 7));
        recheck(&mut wrong);
        assert_eq!(refusal(&wrong), refused(3, 1, 3));
        assert_eq!(refusal(&alter_byte_and_check(&wrong, 3, b'P')), refused(13, 0, 0));
        assert_eq!(refusal(file), refused(14, 0, 0));
        assert_eq!(refusal(other), refused(1, 1, 7), "the other form doesn't walk");
    }
    // the last byte of the next entry, 4
    let unsound_and_ahead = alter_byte_and_check(&alter_byte(&new, 12, 0xFF), 39, 5);
    assert_eq!(move_back(&unsound_and_ahead, &mut []), Err(refused(13, 0, 0)));
    // PION with the new lengths, PIO2 with the old ones
    assert_eq!(moved(&alter_byte_and_check(&new, 6, b'N'), move_back), Err(refused(3, 1, 3)));
    assert_eq!(moved(&alter_byte_and_check(&old, 6, b'2'), move_to_new), Err(refused(3, 1, 3)));
}

/// Reading takes the new form alone.
#[test]
fn reading_takes_the_new_form() {
    let [_, new, _] = cases();
    let old = moved(&new, move_back).unwrap();
    let (mut ledger, mut parties) = (Ledger::new(), [Party::default(); 3]);
    assert_eq!(read_ledger(&mut ledger, &mut parties, &old), Err(refused(1, 1, 7)));
    let letters = alter_byte_and_check(&new, 6, b'N');
    assert_eq!(read_ledger(&mut ledger, &mut parties, &letters), Err(refused(3, 1, 3)));
    assert_eq!(read_ledger(&mut ledger, &mut parties, &new), Ok(()));
}

#[test]
fn outputs_of_every_length() {
    let [_, new, _] = cases();
    let old = moved(&new, move_back).unwrap();
    for (file, by, wanted) in [(&old, move_to_new as Move, &new), (&new, move_back, &old)] {
        for length in 0..wanted.len() {
            let mut output = vec![0xEE; length];
            assert_eq!(by(file, &mut output), Err(refused(14, 0, 0)));
            assert!(output.iter().all(|&byte| byte == 0xEE));
        }
        assert_eq!(moved(file, by).as_ref(), Ok(wanted));
    }
}

/// Old to new to old gives the old bytes, and the new form's values are those of the ledger numbered anew.
fn there_and_back(ledger: &Ledger, parties: &[Party]) {
    let (ledger, parties) = renumbered(ledger, parties);
    let schemes = &ledger.schemes[..usize::from(ledger.standing)];
    let old = encode_old(&ledger, schemes, &parties);
    let new = moved(&old, move_to_new).unwrap();
    assert_eq!(new, encode(&ledger, schemes, &parties));
    assert_eq!(
        (old.len(), new.len()),
        (OLD.length(schemes.len(), parties.len()), NEW.length(schemes.len(), parties.len()))
    );
    assert_eq!(moved(&new, move_back), Ok(old));
}

#[test]
fn moves_of_ledgers_made_by_calls() {
    let mut random = Random::new(15);
    for (schemes, entries) in [(1, 1), (1, 512), (64, 64), (64, 512), (7, 100)] {
        let (ledger, parties) = after(&filling(&mut random, schemes, entries), entries);
        there_and_back(&ledger, &parties);
    }
    for length in [0, 1, 5, 40, 200, 600] {
        for _ in 0..4 {
            let (ledger, parties) = after(&calls(&mut random, length, 150), length);
            there_and_back(&ledger, &parties);
        }
    }
}

/// The move's 13 is document 01's soundness: of any ledger in the old form it is that of the ledger numbered anew.
#[test]
fn old_ledgers_of_any_figures() {
    let mut random = Random::new(16);
    let mut met = [0; 2];
    for _ in 0..40 {
        let (ledger, parties) = after(&calls(&mut random, 100, 120), 100);
        let (ledger, parties) = renumbered(&ledger, &parties);
        for _ in 0..60 {
            let (mut ledger, parties) = altered(&mut random, &ledger, &parties);
            ledger.standing = ledger.standing.min(64);
            ledger.entries = ledger.entries.min(parties.len() as u32);
            let (schemes, entries) = (usize::from(ledger.standing), ledger.entries as usize);
            let old = encode_old(&ledger, &ledger.schemes[..schemes], &parties[..entries]);
            let (ledger, parties) = as_old(&ledger, &parties[..entries]);
            let sound = is_sound(&ledger, &parties);
            let wanted = if sound { Ok(ledger) } else { Err(refused(13, 0, 0)) };
            assert_eq!(moved(&old, move_to_new).map(|new| read(&new)), wanted);
            met[usize::from(sound)] += 1;
        }
    }
    assert!(met.iter().all(|&times| times > 200), "{met:?} not sound, sound");
}

/// The ledger with its places for numbers, whatever they were, and nothing cleared; an entry's scheme stays.
fn as_old(ledger: &Ledger, parties: &[Party]) -> (Ledger, Vec<Party>) {
    let mut numbered = renumbered(ledger, parties);
    for (party, kept) in numbered.1.iter_mut().zip(parties) {
        party.scheme = kept.scheme;
    }
    for scheme in &mut numbered.0.schemes[usize::from(ledger.standing)..] {
        *scheme = Default::default();
    }
    numbered
}

fn read(file: &[u8]) -> Ledger {
    let mut ledger = Ledger::new();
    read_ledger(&mut ledger, &mut vec![Party::default(); 512], file).expect("it was moved");
    ledger
}

/// Damaged files of both forms: what a move takes comes back as the same bytes.
#[test]
fn damaged_files() {
    let mut random = Random::new(17);
    let mut met = [0; 17];
    for _ in 0..60 {
        let (ledger, parties) = after(&calls(&mut random, 40, 80), 40);
        let (old_ledger, old_parties) = renumbered(&ledger, &parties);
        let old = encode_old(&old_ledger, &old_ledger.schemes[..old_ledger.standing.into()], &old_parties);
        let new = Books { ledger, parties }.stored();
        for (file, by, back) in [(old, move_to_new as Move, move_back as Move), (new, move_back, move_to_new)] {
            for _ in 0..30 {
                let damaged = if random.once_in(20) {
                    alter_byte_and_check(&file, 3 + random.index(4), b'O')
                } else {
                    damaged(&mut random, &file)
                };
                let moved_file = moved(&damaged, by);
                met[moved_file.as_ref().err().map_or(0, |refusal| usize::from(refusal.number))] += 1;
                if let Ok(moved_file) = moved_file {
                    assert_eq!(moved(&moved_file, back), Ok(damaged));
                }
            }
        }
    }
    for number in [0, 1, 2, 3, 13, 16] {
        assert!(met[number] > 0, "{number} not met: {met:?}");
    }
}
