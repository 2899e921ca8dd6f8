//! Demand 3 on random lists of calls: accounts, bounds and sums; ledger and table are held against them after every
//! call.

use accounts::{Accounts, Wanted};
use generate::calls::{calls, Call, Outcome};
use generate::Random;
use reference::*;

/// How often each answer and refusal was met.
#[derive(Debug, Default)]
struct Tally {
    /// For none, joined, small and ended, without an opening and with one.
    answers: [[u32; 2]; 4],
    /// "ended" because the scheme was cleared.
    joinings_of_cleared: u64,
    /// Clearings that remove nothing, a part and all.
    clearings: [u32; 3],
    done: u32,
    refusals: [u32; 15],
}

impl Tally {
    fn count(&mut self, outcome: &Wanted) {
        match outcome {
            Ok(Outcome::Done) => self.done += 1,
            Ok(Outcome::Accepted(_, answer)) => {
                let joining = match answer.joining {
                    None => 0,
                    Some(Joining::Joined { .. }) => 1,
                    Some(Joining::Small) => 2,
                    Some(Joining::Ended) => 3,
                };
                self.answers[joining][usize::from(answer.opened.is_some())] += 1;
            }
            Err(refused) => self.refusals[usize::from(refused.number)] += 1,
        }
    }

    /// Counts a clearing by the schemes that stand before and after it.
    fn count_clearing(&mut self, before: u16, after: u16) {
        let removed = before > after;
        self.clearings[usize::from(removed) + usize::from(removed && after == 0)] += 1;
    }
}

/// Runs a list on a new ledger and a table whose records past the last entry must stay as each call found them.
fn run(list: &[Call], table_length: usize, tally: &mut Tally) {
    let marked = Party { number: 100, scheme: 99, person: 98, capacity: 97, put_in: 96, credited: 95, paid_out: 94 };
    let (mut ledger, mut parties) = (Ledger::new(), vec![marked; table_length]);
    let mut accounts = Accounts::default();
    for call in list {
        let before = (ledger.clone(), parties.clone());
        let outcome = call.run(&mut ledger, &mut parties);
        assert_eq!(outcome, accounts.call(call, table_length));
        if outcome.is_err() {
            assert_eq!((&ledger, &parties), (&before.0, &before.1), "a refusal changes nothing");
        }
        accounts.check_ledger(&ledger, &parties);
        assert_eq!(parties[accounts.entries()..], before.1[accounts.entries()..]);
        accounts.check_demand();
        tally.count(&outcome);
        if matches!(call, Call::Clear { .. }) && outcome.is_ok() {
            tally.count_clearing(before.0.standing, ledger.standing);
        }
    }
    tally.joinings_of_cleared += accounts.joinings_of_cleared();
    assert!(ledger::is_sound(&ledger, &parties), "a ledger made by calls is sound");
}

#[test]
fn random_lists() {
    let mut tally = Tally::default();
    for seed in 0..120 {
        let mut random = Random::new(seed);
        let table_length = random.choose(&[0, 1, 2, 10, 64, 100, 512, 600]);
        let count = random.within(1, 150) as usize;
        run(&calls(&mut random, table_length, count), table_length, &mut tally);
    }
    for seed in 1_000..1_006 {
        let mut random = Random::new(seed);
        run(&calls(&mut random, 600, 1_500), 600, &mut tally);
    }
    println!("{tally:?}");
    assert!(tally.answers.iter().flatten().all(|&times| times > 20) && tally.done > 100, "{tally:?}");
    assert!(tally.clearings.iter().all(|&times| times > 10) && tally.joinings_of_cleared > 20, "{tally:?}");
    for number in [1, 2, 3, 4, 5, 6, 7, 8, 9, 11, 12] {
        assert!(tally.refusals[number] > 0, "refusal {number} not met: {tally:?}");
    }
}

#[test]
fn full_ledgers() {
    let mut tally = Tally::default();
    for (schemes, entries) in [(1, 513), (64, 513), (65, 600), (3, 200)] {
        run(&generate::calls::filling(&mut Random::new(7), schemes, entries), 600, &mut tally);
    }
}
