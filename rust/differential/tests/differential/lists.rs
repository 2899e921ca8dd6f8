use super::cases;
use accounts::Accounts;
use differential::wanted::{places_of_answer, table};
use differential::{Buffers, LibraryCall, Tally};
use fikrem::{raw, LONGEST_TABLE};
use generate::books::stored_form;
use generate::calls::{calls, extended, filling, Call, Outcome};
use generate::Random;
use reference::{Ledger, Refusal};

/// The library's result and answer are the reference implementation's.
fn same_answer(outcome: &Result<Outcome, Refusal>, result: u64, seen: &Buffers) {
    let places = match outcome {
        Ok(Outcome::Done) => [0; 4],
        Ok(Outcome::Accepted(_, answer)) => places_of_answer(*answer),
        Err(refusal) => return assert_eq!(raw::number(result), refusal.number.into()),
    };
    assert_eq!((result, &seen.answer[..raw::WRITTEN]), (raw::DONE, &places[..]));
}

/// Moves a stored ledger back and to the new form again, if nothing was cleared; it comes back as the same bytes.
fn there_and_back(tally: &mut Tally, stored: &[u8], accounts: &Accounts) {
    let (result, seen) = tally.compare(&LibraryCall::MoveBack { file: stored });
    assert_eq!(result, if accounts.any_cleared() { raw::NUMBERS_NOT_COUNTS } else { raw::DONE });
    if result == raw::DONE {
        let old = seen.written().to_vec();
        let (result, seen) = tally.compare(&LibraryCall::MoveToNew { file: &old });
        assert_eq!((result, seen.written()), (raw::DONE, stored));
    }
}

/// Runs a list from a new ledger on a table of this length: the library from stored form to stored form, with moves in
/// between, the reference implementation on its ledger and table. Both agree with the accounts after each call. The ledger
/// that the list leaves.
fn run(tally: &mut Tally, list: &[Call], table_size: usize) -> Ledger {
    let (mut ledger, mut parties) = (Ledger::new(), table(table_size));
    let mut stored = tally.compare(&LibraryCall::NewLedger).1.written().to_vec();
    let mut accounts = Accounts::default();
    for (place, call) in list.iter().enumerate() {
        let outcome = call.run(&mut ledger, &mut parties);
        assert_eq!(outcome, accounts.call(call, table_size));
        let (result, seen) = tally.compare(&LibraryCall::on(&stored, table_size, call));
        same_answer(&outcome, result, &seen);
        if outcome.is_ok() {
            stored = seen.written().to_vec();
        }
        assert!(stored == stored_form(&ledger, &parties), "the stored forms differ");
        accounts.check_ledger(&ledger, &parties);
        accounts.check_demand();
        if place % 16 == 0 {
            there_and_back(tally, &stored, &accounts);
        }
    }
    tally.joinings_of_cleared += accounts.joinings_of_cleared();
    ledger
}

/// Short and long lists, each under one to five books of different fees, minimums and terms.
pub fn random_lists(tally: &mut Tally) {
    for seed in 0..cases(100) {
        let mut random = Random::new(1_000 + seed);
        let count = random.within(1, 150) as usize;
        run(tally, &calls(&mut random, LONGEST_TABLE, count), LONGEST_TABLE);
    }
    let mut most = (0, 0);
    for seed in 0..cases(18) {
        let list = calls(&mut Random::new(2_000 + seed), LONGEST_TABLE, 1_500);
        let ledger = run(tally, &list, LONGEST_TABLE);
        most = (most.0.max(ledger.standing), most.1.max(ledger.entries));
    }
    println!("  the fullest of the long lists: {} schemes, {} entries", most.0, most.1);
}

/// Ledgers filled to 64 schemes, to 512 entries or to both, and calls after that.
pub fn full_ledgers(tally: &mut Tally) {
    for seed in 0..cases(1) {
        let mut random = Random::new(3_000 + seed);
        for (schemes, entries) in [(64, 512), (1, 512), (64, 480), (7, 505)] {
            let list = filling(&mut random, schemes, entries);
            let list = extended(&mut random, list, LONGEST_TABLE, 250);
            let ledger = run(tally, &list, LONGEST_TABLE);
            assert!(ledger.next_scheme as usize > schemes && ledger.next_entry as usize > entries);
        }
    }
}

/// The same lists on tables of 0 to 8 records, and lists of their own for each.
pub fn small_tables(tally: &mut Tally) {
    let mut full = [0; 9];
    for seed in 0..cases(30) {
        let mut random = Random::new(4_000 + seed);
        let list = calls(&mut random, 8, 120);
        for (table_size, full) in full.iter_mut().enumerate() {
            let ledger = run(tally, &list, table_size);
            *full += u32::from(ledger.entries as usize == table_size);
            run(tally, &calls(&mut random, table_size, 60), table_size);
        }
    }
    println!("  so many of the same lists fill tables of 0 to 8 records: {full:?}");
    assert!(full.iter().all(|&lists| lists > 0), "a table was never filled");
}

/// Joinings until tables of about 512 records, and of far more, are full, and calls after that.
pub fn long_tables(tally: &mut Tally) {
    for seed in 0..cases(1) {
        let mut random = Random::new(5_000 + seed);
        for table_size in [509, 510, 511, 512, 513, 514, 600, usize::MAX] {
            let list = filling(&mut random, 3, 516);
            let list = extended(&mut random, list, table(table_size).len(), 60);
            let ledger = run(tally, &list, table_size);
            assert_eq!(ledger.entries as usize, table_size.min(LONGEST_TABLE));
        }
    }
}
