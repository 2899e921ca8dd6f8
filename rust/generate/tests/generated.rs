//! What is generated: the same by the same seed, within the limits, and over all of them.

use generate::calls::{after, calls, filling, Call, Outcome};
use generate::damage::*;
use generate::fields::parts;
use generate::ledgers::table_size;
use generate::request::{pair, refused_bespoke_rate};
use generate::{Book, Random, Request};
use reference::{price, Ledger, Party, Refusal};
use std::collections::BTreeSet;

#[test]
fn the_same_seed_gives_the_same() {
    let made = |seed| {
        let mut random = Random::new(seed);
        (pair(&mut random), calls(&mut random, 20, 50))
    };
    assert_eq!(made(1), made(1));
    assert_ne!(made(1), made(2));
}

#[test]
fn numbers_stay_within() {
    let mut random = Random::new(0);
    for (low, high) in [(0, 0), (5, 6), (0, u64::MAX), (u64::MAX, u64::MAX), (7, 300)] {
        let numbers: BTreeSet<u64> = (0..2_000).map(|_| random.edge(low, high)).collect();
        assert_eq!((numbers.first(), numbers.last()), (Some(&low), Some(&high)));
    }
}

#[test]
fn pairs_cover_their_edges() {
    let mut random = Random::new(3);
    let pairs: Vec<(Book, Request)> = (0..3_000).map(|_| pair(&mut random)).collect();
    assert!(pairs.iter().all(|(book, request)| price(&book.encode(), &request.encode()).is_ok()));
    let seen = |values: &dyn Fn(&Book, &Request) -> Vec<u64>| -> BTreeSet<u64> {
        pairs.iter().flat_map(|(book, request)| values(book, request)).collect()
    };
    assert_eq!(seen(&|book, _| vec![book.zones.len() as u64]), (1..=8).collect());
    assert_eq!(seen(&|book, _| vec![book.distribution_factors.len() as u64]), (1..=8).collect());
    assert_eq!(seen(&|_, request| request.tiers.map(|tier| tier.mode.into()).to_vec()), (0..=2).collect());
    assert_eq!(seen(&|_, request| vec![request.class.into()]), (0..=2).collect());
    assert_eq!(seen(&|_, request| vec![request.mark.into()]), (0..=2).collect());
    assert_eq!(seen(&|book, _| vec![book.capacity_charged.into()]), (0..=1).collect());
    let edges = |values: &dyn Fn(&Book, &Request) -> u64| {
        let seen = seen(&|book, request| vec![values(book, request)]);
        (*seen.first().unwrap(), *seen.last().unwrap())
    };
    assert_eq!(edges(&|book, _| book.discount_rate.into()), (0, 10_000));
    let rates: BTreeSet<u64> = seen(&|book, _| vec![book.discount_rate.into()]);
    assert!((275..=625).step_by(25).all(|rate| (rate - 1..=rate + 1).all(|beside| rates.contains(&beside))));
    assert_eq!(edges(&|book, _| book.threshold.into()), (0, 5_000_000));
    assert_eq!(edges(&|book, _| book.fee.into()), (0, 1_000_000_000));
    assert_eq!(edges(&|book, _| book.term.into()), (84, 65_535));
    assert_eq!(edges(&|book, _| book.zones[0].1[4].into()), (0, 10_000_000));
    assert_eq!(edges(&|_, request| request.ol.into()), (0, 1_000_000_000));
    assert_eq!(edges(&|_, request| request.capacity.into()), (1, 1_000_000));
    assert_eq!(edges(&|_, request| request.added_demands[4].into()), (0, 1_000_000));
    assert_eq!(edges(&|_, request| request.part_year[0].into()), (0, 40_000));
    let bespoke = |_: &Book, request: &Request| request.tiers.map(|tier| u64::from(tier.mode == 2)).iter().sum();
    assert_eq!(edges(&bespoke), (0, 5));
}

#[test]
fn refusals_four_and_five() {
    let mut random = Random::new(4);
    for _ in 0..500 {
        let (book, request) = pair(&mut random);
        let other = Request { zone: book.missing_zone(&mut random), ..request.clone() };
        let refused = price(&book.encode(), &other.encode()).unwrap_err();
        assert_eq!(refused, Refusal { number: 4, file: 2, place: 0 });
        let mut bespoke = request;
        let tier = random.index(5);
        bespoke.tiers[tier].mode = 2;
        let posted = book.rates(bespoke.zone).unwrap()[tier];
        bespoke.tiers[tier].bespoke_rate = refused_bespoke_rate(&mut random, posted);
        let refused = price(&book.encode(), &bespoke.encode()).unwrap_err();
        assert_eq!(refused, Refusal { number: 5, file: 2, place: tier + 1 });
    }
}

#[test]
fn damage_keeps_its_word() {
    let whole = Book::slip().encode();
    let end = whole.len() - 5;
    let right = |file: &[u8]| alter_byte_and_check(file, 0, file[0]) == file;
    assert!(right(&whole) && !right(&alter_byte(&whole, 9, 9)) && right(&alter_byte_and_check(&whole, 9, 9)));
    assert_eq!((truncate(&whole, 7), extend(&whole, &[1]).len()), (whole[..7].to_vec(), whole.len() + 1));
    assert_eq!(truncate_and_close(&whole, end), whole);
    assert_eq!(extend_and_close(&whole, &[]), whole);
    assert_eq!(fields_exchanged(&fields_exchanged(&whole, 3), 3), whole);
    assert_eq!(without_field(&field_twice(&whole, 2), 2), whole);
    assert_eq!(parts(&whole).len(), 8);
    assert_eq!(parts(&whole).last().unwrap().end, end);
}

#[test]
fn tables_lie_about_the_entries() {
    let mut random = Random::new(8);
    let mut sizes = |entries| (0..500).map(|_| table_size(&mut random, entries)).collect::<BTreeSet<usize>>();
    assert_eq!(sizes(20), BTreeSet::from([0, 1, 10, 19, 20, 21, 22, 511, 512, 513, usize::MAX]));
    assert_eq!(sizes(0), BTreeSet::from([0, 1, 2, 511, 512, 513, usize::MAX]));
}

#[test]
fn lists_hold_every_kind_of_call() {
    let list = calls(&mut Random::new(5), 100, 400);
    let count = |kind: fn(&Call) -> bool| list.iter().filter(|call| kind(call)).count();
    assert!(count(|call| matches!(call, Call::Accept { .. })) > 200);
    assert!(count(|call| matches!(call, Call::PayOut { .. })) > 40);
    assert!(count(|call| matches!(call, Call::HandOver { .. })) > 20);
    assert!(count(|call| matches!(call, Call::Clear { .. })) > 10);
    let (ledger, _) = after(&list, 100);
    assert!(ledger.standing > 5 && ledger.entries > u32::from(ledger.standing));
    let (ledger, parties) = after(&filling(&mut Random::new(6), 64, 512), 512);
    assert_eq!((ledger.standing, ledger.entries, parties.len()), (64, 512, 512));
}

#[test]
fn lists_hold_joiners_that_build_on() {
    let (mut ledger, mut parties) = (Ledger::new(), vec![Party::default(); 512]);
    let builds_on = |call: &Call| match call.run(&mut ledger, &mut parties) {
        Ok(Outcome::Accepted(_, answer)) => answer.joining.is_some() && answer.opened.is_some(),
        _ => false,
    };
    let list = calls(&mut Random::new(7), 512, 400);
    assert!(list.iter().map(builds_on).filter(|&builds_on| builds_on).count() > 20);
}
