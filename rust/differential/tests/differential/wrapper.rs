use super::cases;
use differential::wanted::{figures_of, table};
use differential::{Buffers, LibraryCall, Tally};
use fikrem::raw::{ANSWER, WRITTEN};
use fikrem::{Answer, Bill, Holdings, Joining, Refused, LONGEST_FORM, LONGEST_TABLE};
use generate::books::stored_form;
use generate::calls::{calls, Call, Outcome};
use generate::damage::damaged;
use generate::ledgers::table_size;
use generate::{Book, Random, Request};
use reference::refusal::OUTPUT_TOO_SHORT;
use reference::{Ledger, Refusal};

const OUTPUT: Refusal = Refusal::of_call(OUTPUT_TOO_SHORT);

fn same_refusal(refused: fikrem::Refusal, wanted: Refusal) {
    assert_eq!((refused.number(), refused.file, refused.place), (wanted.number, wanted.file, wanted.place));
}

/// The bill's fields in the order of the figures.
fn same_bill(bill: &Bill, wanted: &reference::Bill) {
    let amounts = [bill.me, bill.mc, bill.ce, bill.cc2, bill.tw, bill.hr, bill.ol, bill.ic, bill.ir, bill.cc];
    let mut figures = amounts.map(|amount| amount as i64).to_vec();
    figures.extend([bill.nic, bill.nc, bill.x as i64, bill.entered as i64, bill.borne as i64]);
    let percentages = [bill.reliance, bill.upfront, bill.nc_ratio];
    for percentage in percentages {
        figures.extend([percentage.is_some().into(), percentage.map_or(0, |percentage| percentage.rounded)]);
    }
    for percentage in percentages {
        let [quotient, remainder] = percentage.map_or([0, 0], |exact| [exact.quotient, exact.remainder as i64]);
        figures.extend([quotient, remainder]);
    }
    assert_eq!(figures, figures_of(wanted));
}

fn pricing(book: &[u8], request: &[u8]) {
    match (fikrem::price(book, request), reference::price(book, request)) {
        (Ok(bill), Ok(wanted)) => same_bill(&bill, &wanted),
        (Err(refusal), Err(wanted)) => same_refusal(refusal, wanted),
        (seen, wanted) => panic!("{seen:?}, wanted {wanted:?}"),
    }
    let slip = fikrem::slip_text(book, request).into_bytes();
    assert_eq!(slip, reference::slip(book, request));
    same_output(&slip, |text| fikrem::slip_text_into(book, request, text));
}

/// What `write` writes into a buffer of this length, and that it is refused by 14 where the buffer is a byte shorter.
fn same_output(wanted: &[u8], mut write: impl FnMut(&mut [u8]) -> Result<usize, fikrem::Refusal>) {
    let mut out = vec![0xEE; wanted.len()];
    let (_, short) = out.split_last_mut().expect("no output is empty");
    same_refusal(write(short).expect_err("a byte short"), OUTPUT);
    assert!(out.iter().all(|&byte| byte == 0xEE), "a refusal changes nothing");
    assert_eq!(write(&mut out), Ok(wanted.len()));
    assert_eq!(out, wanted);
}

fn same_outcome(answer: Answer, bill: &Bill, call: &Call, wanted: &Outcome) {
    let (Outcome::Accepted(_, wanted), Call::Accept { book, request }) = (wanted, call) else {
        panic!("an accept is accepted");
    };
    let joining = wanted.joining.map(|joining| match joining {
        reference::Joining::Joined { entry, collected } => Joining::Joined { entry, collected },
        reference::Joining::Small => Joining::Small,
        reference::Joining::Ended => Joining::Ended,
    });
    assert_eq!(answer, Answer { joining, opened: wanted.opened });
    same_bill(bill, &reference::price(book, request).expect("an accepted request is priced"));
}

/// The call by the wrapper; the new stored form.
fn stored_call(stored: &[u8], table_size: usize, call: &Call, wanted: &Result<Outcome, Refusal>) -> Option<Vec<u8>> {
    let new = match call {
        Call::Accept { book, request } => fikrem::accept(stored, table_size, book, request).map(|(accepted, out)| {
            same_outcome(accepted.answer, &accepted.bill, call, wanted.as_ref().expect("accepted"));
            out
        }),
        Call::PayOut { entry, amount } => fikrem::pay_out(stored, table_size, *entry, *amount),
        Call::HandOver { entry, person } => fikrem::hand_over(stored, table_size, *entry, *person),
        Call::Clear { month } => fikrem::clear(stored, table_size, *month),
    };
    match (new, wanted) {
        (Ok(new), Ok(_)) => {
            same_output(&new, |out| stored_call_into(stored, table_size, call, out));
            Some(new)
        }
        (Err(Refused::Call(refusal)), Err(wanted)) => {
            same_refusal(refusal, *wanted);
            None
        }
        (seen, wanted) => panic!("{seen:?}, wanted {wanted:?}"),
    }
}

fn stored_call_into(stored: &[u8], table_size: usize, call: &Call, out: &mut [u8]) -> Result<usize, fikrem::Refusal> {
    let written = match call {
        Call::Accept { book, request } => {
            fikrem::accept_into(stored, table_size, book, request, out).map(|(_, length)| length)
        }
        Call::PayOut { entry, amount } => fikrem::pay_out_into(stored, table_size, *entry, *amount, out),
        Call::HandOver { entry, person } => fikrem::hand_over_into(stored, table_size, *entry, *person, out),
        Call::Clear { month } => fikrem::clear_into(stored, table_size, *month, out),
    };
    written.map_err(|refused| refused.refusal())
}

/// The stored ledger, or any bytes in its place: what it holds, or that it is refused as such.
fn stored_ledger(stored: &[u8], table_size: usize) {
    let (mut ledger, mut parties) = (Ledger::new(), table(table_size));
    let seen = fikrem::judge_ledger(stored, table_size);
    let Err(wanted) = reference::read_ledger(&mut ledger, &mut parties, stored) else {
        let Ledger { standing, entries, connections, month, .. } = ledger;
        assert_eq!(seen, Ok(Holdings { schemes: standing, entries, connections, month }));
        return;
    };
    same_refusal(seen.expect_err("refused"), wanted);
    let refused = [
        fikrem::accept(stored, table_size, &[], &[]).map(|_| ()),
        fikrem::pay_out(stored, table_size, 1, 1).map(|_| ()),
        fikrem::hand_over(stored, table_size, 1, 1).map(|_| ()),
        fikrem::clear(stored, table_size, 1).map(|_| ()),
    ];
    for seen in refused {
        match seen {
            Err(Refused::Stored(refusal)) => same_refusal(refusal, wanted),
            seen => panic!("{seen:?}, wanted {wanted:?}"),
        }
    }
}

/// A move of the reference implementation, and what it writes.
type Move = fn(&[u8], &mut [u8]) -> Result<usize, Refusal>;

/// The file moved, or any bytes in its place; what was written.
fn same_move(seen: Result<Vec<u8>, fikrem::Refusal>, wanted: Move, file: &[u8]) -> Option<Vec<u8>> {
    let mut out = vec![0; LONGEST_FORM];
    match (seen, wanted(file, &mut out)) {
        (Ok(seen), Ok(length)) => {
            assert_eq!(seen, out[..length]);
            Some(seen)
        }
        (Err(refusal), Err(wanted)) => {
            same_refusal(refusal, wanted);
            None
        }
        (seen, wanted) => panic!("{seen:?}, wanted {wanted:?}"),
    }
}

/// Both moves of a file, or of any bytes in its place.
fn moves(file: &[u8]) {
    if let Some(old) = same_move(fikrem::move_back(file), reference::move_back, file) {
        same_output(&old, |out| fikrem::move_back_into(file, out));
        moves(&old);
    }
    if let Some(new) = same_move(fikrem::move_to_new(file), reference::move_to_new, file) {
        same_output(&new, |out| fikrem::move_to_new_into(file, out));
    }
}

/// Lists of calls on tables of several lengths, by each function of the wrapper.
fn lists(tally: &mut Tally, random: &mut Random) {
    for records in [0, 1, 5, 40, LONGEST_TABLE, LONGEST_TABLE, usize::MAX] {
        let (mut ledger, mut parties) = (Ledger::new(), table(records));
        let mut stored = fikrem::new_ledger();
        for call in calls(random, parties.len(), 200) {
            if let Call::Accept { book, request } = &call {
                pricing(book, request);
            }
            let outcome = call.run(&mut ledger, &mut parties);
            let seen = stored_call(&stored, records, &call, &outcome);
            let counted = LibraryCall::on(&stored, records, &call);
            tally.count(&counted, result(&outcome), &answered(&outcome));
            stored = seen.unwrap_or(stored);
            assert!(stored == stored_form(&ledger, &parties), "the stored forms differ");
            stored_ledger(&stored, table_size(random, ledger.entries));
            let damaged = damaged(random, &stored);
            stored_ledger(&damaged, table_size(random, ledger.entries));
            moves(&stored);
            moves(&damaged);
        }
    }
}

/// Any bytes, with the wrapper's every function: none panics.
fn any_bytes(random: &mut Random) {
    let [book, request, stored] = [(); 3].map(|_| {
        let length = random.edge(0, 300);
        (0..length).map(|_| random.next_u64() as u8).collect::<Vec<u8>>()
    });
    pricing(&book, &request);
    pricing(&Book::slip().encode(), &request);
    pricing(&book, &Request::slip().encode());
    stored_ledger(&stored, random.edge(0, u64::MAX) as usize);
    moves(&stored);
}

/// The safe wrapper against the reference implementation.
pub fn wrapper(tally: &mut Tally) {
    let mut random = Random::new(160);
    pricing(&Book::slip().encode(), &Request::slip().encode());
    same_output(&fikrem::new_ledger(), fikrem::new_ledger_into);
    for _ in 0..cases(2) {
        lists(tally, &mut random);
    }
    for _ in 0..cases(2_000) {
        any_bytes(&mut random);
    }
}

fn result(outcome: &Result<Outcome, Refusal>) -> u64 {
    outcome.as_ref().err().map_or(0, |refusal| refusal.number.into())
}

/// Buffers that hold accept's answer, for the count.
fn answered(outcome: &Result<Outcome, Refusal>) -> Buffers {
    let mut buffers = Buffers::of(0, 0, ANSWER);
    if let Ok(Outcome::Accepted(_, answer)) = outcome {
        buffers.answer[..WRITTEN].copy_from_slice(&differential::wanted::places_of_answer(*answer));
    }
    buffers
}
