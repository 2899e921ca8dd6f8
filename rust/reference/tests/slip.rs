//! The slip's text.

use generate::damage::alter_byte;
use generate::{Book, Request};
use reference::slip;

fn text(book: &[u8], request: &[u8]) -> String {
    String::from_utf8(slip(book, request)).unwrap()
}

#[test]
fn the_documents_slip_byte_for_byte() {
    let wanted = "CC 1147630\nIC 1706500\nIR 859800\nNIC 846700\nNC 300930\nRELIANCE 67\nUPFRONT 57\nNCRATIO 15\n\
        RELIANCE-R 67 427500\nUPFRONT-R 57 339490\nNCRATIO-R 14 1988980\n";
    assert_eq!(slip(&Book::slip().encode(), &Request::slip().encode()), wanted.as_bytes());
}

#[test]
fn none_is_a_dash() {
    let wanted = "CC 0\nIC 0\nIR 0\nNIC 0\nNC 0\nRELIANCE -\nUPFRONT -\nNCRATIO -\n\
        RELIANCE-R -\nUPFRONT-R -\nNCRATIO-R -\n";
    assert_eq!(text(&Book::slip().encode(), &Request::of_nothing().encode()), wanted);
}

#[test]
fn negative_figures_and_percentages() {
    let book = Book { capacity_charged: 0, credit_share: 0, ..Book::slip() };
    let request = Request { me: 20_000_000, ..Request::slip() };
    // NC = IR − MC is positive; without revenue it is −MC
    assert!(text(&book.encode(), &request.encode()).contains("NC 751800\n"));
    let request = Request { distribution_revenue: 0, ..request };
    let wanted = "CC 20000000\nIC 20108000\nIR 0\nNIC 20108000\nNC -108000\nRELIANCE 99\nUPFRONT 100\nNCRATIO -1\n\
        RELIANCE-R 99 9308000\nUPFRONT-R 100 0\nNCRATIO-R -1 9200000\n";
    assert_eq!(text(&book.encode(), &request.encode()), wanted);
    // −108,000 of 21,600,001 is just above −1/2 percent and prints 0
    let request = Request { me: 21_600_001, ..request };
    assert!(text(&book.encode(), &request.encode()).contains("NCRATIO 0\n"));
    let request = Request { me: 21_600_000, ..request };
    assert!(text(&book.encode(), &request.encode()).contains("NCRATIO -1\n"));
    let request = Request { me: 0, ..Request::slip() };
    assert!(text(&Book::slip().encode(), &request.encode()).contains("NIC -751800\n"));
}

#[test]
fn refusals_are_one_line() {
    let (book, request) = (Book::slip().encode(), Request::slip().encode());
    assert_eq!(text(&[], &[]), "REFUSED 1 1 0\n");
    assert_eq!(text(&book, &[]), "REFUSED 1 2 0\n");
    assert_eq!(text(&alter_byte(&book, 20, 1), &request), format!("REFUSED 2 1 {}\n", book.len() - 2));
    // 7 + 5 + 43 + 5 + 5 bytes of fields 01 to 05, 3 of the head of 06, 12 of threshold, fee and minimum
    assert_eq!(text(&Book { term: 83, ..Book::slip() }.encode(), &request), "REFUSED 3 1 80\n");
    assert_eq!(text(&book, &Request { zone: 2, ..Request::slip() }.encode()), "REFUSED 4 2 0\n");
    let mut bespoke = Request::slip();
    bespoke.tiers[2].mode = 2;
    bespoke.tiers[2].bespoke_rate = 12_750;
    assert_eq!(text(&book, &bespoke.encode()), "REFUSED 5 2 3\n");
}
