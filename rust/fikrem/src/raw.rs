//! `include/fikrem.h` in Rust: its numbers under its names, and its functions on slices. Every result but those of
//! `check` and `version` is `DONE` or a refusal, which has written nothing.

#![allow(unsafe_code)]

// The version of the interface.
pub const VERSION: u32 = 5;

// `number` of a result.
pub const DONE: u64 = 0;
pub const FILE_DOES_NOT_WALK: u64 = 1;
pub const CHECK_DIFFERS: u64 = 2;
pub const VALUE_NOT_LISTED: u64 = 3;
pub const ZONE_NOT_IN_BOOK: u64 = 4;
pub const BESPOKE_NOT_ALLOWED: u64 = 5;
pub const SCHEME_NEVER_OPENED: u64 = 6;
pub const MONTH_BEFORE_LAST: u64 = 7;
pub const NO_SCHEME_LEFT: u64 = 8;
pub const NO_ENTRY_LEFT: u64 = 9;
pub const NO_CONNECTION_LEFT: u64 = 10;
pub const NO_SUCH_ENTRY: u64 = 11;
pub const PAY_OUT_ABOVE_CREDIT: u64 = 12;
pub const LEDGER_UNSOUND: u64 = 13;
pub const OUTPUT_TOO_SHORT: u64 = 14;
pub const LOW_ABOVE_HIGH: u64 = 15;
pub const NUMBERS_NOT_COUNTS: u64 = 16;

/// The number of the refusal that a result is.
pub fn number(result: u64) -> u64 {
    result % 32
}

/// Its file.
pub fn file(result: u64) -> u64 {
    result / 32 % 4
}

/// 1 where it is of the stored ledger itself.
pub fn of_ledger(result: u64) -> u64 {
    result / 128 % 2
}

/// Its place.
pub fn place(result: u64) -> u64 {
    result / 256
}

// Places of the answer of a done call, and how many it has.
pub const JOINING: usize = 0;
pub const ENTRY: usize = 1;
pub const COLLECTED: usize = 2;
pub const OPENED_SCHEME: usize = 3;
pub const WRITTEN: usize = 4;
pub const ANSWER: usize = 5;

// The same places where `judge_ledger` is done.
pub const SCHEMES: usize = 0;
pub const ENTRIES: usize = 1;
pub const CONNECTED: usize = 2;
pub const LAST_MONTH: usize = 3;

// What became of the joining that accept was asked for, in place `JOINING`.
pub const NO_JOINING: u64 = 0;
pub const JOINED: u64 = 1;
pub const SMALL: u64 = 2;
pub const ENDED: u64 = 3;

// Places of the figures, and how many they are.
pub const ME: usize = 0;
pub const MC: usize = 1;
pub const CE: usize = 2;
pub const CC2: usize = 3;
pub const TW: usize = 4;
pub const HR: usize = 5;
pub const OL: usize = 6;
pub const IC: usize = 7;
pub const IR: usize = 8;
pub const CC: usize = 9;
pub const NIC: usize = 10;
pub const NC: usize = 11;
pub const X: usize = 12;
pub const ENTERED: usize = 13;
pub const BORNE: usize = 14;
pub const HAS_RELIANCE: usize = 15;
pub const RELIANCE: usize = 16;
pub const HAS_UPFRONT: usize = 17;
pub const UPFRONT: usize = 18;
pub const HAS_NCRATIO: usize = 19;
pub const NCRATIO: usize = 20;
pub const RELIANCE_QUOTIENT: usize = 21;
pub const RELIANCE_REMAINDER: usize = 22;
pub const UPFRONT_QUOTIENT: usize = 23;
pub const UPFRONT_REMAINDER: usize = 24;
pub const NCRATIO_QUOTIENT: usize = 25;
pub const NCRATIO_REMAINDER: usize = 26;
pub const FIGURES: usize = 27;

// Places of the figures of a band, and how many they are.
pub const LOWEST_IR: usize = 0;
pub const HIGHEST_IR: usize = 1;
pub const LOWEST_CC: usize = 2;
pub const HIGHEST_CC: usize = 3;
pub const LOWEST_NC: usize = 4;
pub const HIGHEST_NC: usize = 5;
pub const BAND: usize = 6;

// The most bytes of a book, a request, a slip, a stored ledger and one of the old form, the bytes of a page, and the
// records of the longest party table.
pub const BOOK_SIZE: usize = 321;
pub const REQUEST_SIZE: usize = 206;
pub const TEXT_SIZE: usize = 256;
pub const LEDGER_SIZE: usize = 20_997;
pub const OLD_LEDGER_SIZE: usize = 18_661;
pub const PAGE_SIZE: usize = 768;
pub const TABLE_SIZE: usize = 512;

mod declared {
    extern "C" {
        pub fn fikrem_version() -> u32;
        pub fn fikrem_price(
            book: *const u8,
            book_size: usize,
            request: *const u8,
            request_size: usize,
            figures: *mut i64,
            figures_places: usize,
        ) -> u64;
        pub fn fikrem_price_band(
            book: *const u8,
            book_size: usize,
            request: *const u8,
            request_size: usize,
            distribution_low: u64,
            distribution_high: u64,
            transmission_low: u64,
            transmission_high: u64,
            figures: *mut i64,
            figures_places: usize,
        ) -> u64;
        pub fn fikrem_slip_text(
            book: *const u8,
            book_size: usize,
            request: *const u8,
            request_size: usize,
            text: *mut u8,
            text_size: usize,
            answer: *mut u64,
            answer_places: usize,
        ) -> u64;
        pub fn fikrem_page(
            book: *const u8,
            book_size: usize,
            request: *const u8,
            request_size: usize,
            out: *mut u8,
            out_size: usize,
        ) -> u64;
        pub fn fikrem_judge_book(book: *const u8, book_size: usize) -> u64;
        pub fn fikrem_judge_request(request: *const u8, request_size: usize) -> u64;
        pub fn fikrem_new_ledger(out: *mut u8, out_size: usize, answer: *mut u64, answer_places: usize) -> u64;
        pub fn fikrem_accept(
            stored: *const u8,
            stored_size: usize,
            table_size: usize,
            book: *const u8,
            book_size: usize,
            request: *const u8,
            request_size: usize,
            out: *mut u8,
            out_size: usize,
            figures: *mut i64,
            figures_places: usize,
            answer: *mut u64,
            answer_places: usize,
        ) -> u64;
        pub fn fikrem_pay_out(
            stored: *const u8,
            stored_size: usize,
            table_size: usize,
            entry: u32,
            amount: u64,
            out: *mut u8,
            out_size: usize,
            answer: *mut u64,
            answer_places: usize,
        ) -> u64;
        pub fn fikrem_hand_over(
            stored: *const u8,
            stored_size: usize,
            table_size: usize,
            entry: u32,
            person: u32,
            out: *mut u8,
            out_size: usize,
            answer: *mut u64,
            answer_places: usize,
        ) -> u64;
        pub fn fikrem_clear(
            stored: *const u8,
            stored_size: usize,
            table_size: usize,
            month: u16,
            out: *mut u8,
            out_size: usize,
            answer: *mut u64,
            answer_places: usize,
        ) -> u64;
        pub fn fikrem_judge_ledger(
            stored: *const u8,
            stored_size: usize,
            table_size: usize,
            answer: *mut u64,
            answer_places: usize,
        ) -> u64;
        pub fn fikrem_move_to_new(
            file: *const u8,
            file_size: usize,
            out: *mut u8,
            out_size: usize,
            answer: *mut u64,
            answer_places: usize,
        ) -> u64;
        pub fn fikrem_move_back(
            file: *const u8,
            file_size: usize,
            out: *mut u8,
            out_size: usize,
            answer: *mut u64,
            answer_places: usize,
        ) -> u64;
        pub fn fikrem_check(bytes: *const u8, bytes_size: usize) -> u32;
    }
}

// Safety of every call below: the library reads and writes only within the slices that it is given, keeps none of
// them, and Rust lends the written ones to nobody else meanwhile.

pub fn version() -> u32 {
    unsafe { declared::fikrem_version() }
}

pub fn price(book: &[u8], request: &[u8], figures: &mut [i64]) -> u64 {
    unsafe {
        declared::fikrem_price(
            book.as_ptr(),
            book.len(),
            request.as_ptr(),
            request.len(),
            figures.as_mut_ptr(),
            figures.len(),
        )
    }
}

/// The figures are low and high year-one revenue, distribution then transmission.
pub fn price_band(book: &[u8], request: &[u8], revenues: [u64; 4], figures: &mut [i64]) -> u64 {
    let [distribution_low, distribution_high, transmission_low, transmission_high] = revenues;
    unsafe {
        declared::fikrem_price_band(
            book.as_ptr(),
            book.len(),
            request.as_ptr(),
            request.len(),
            distribution_low,
            distribution_high,
            transmission_low,
            transmission_high,
            figures.as_mut_ptr(),
            figures.len(),
        )
    }
}

pub fn slip_text(book: &[u8], request: &[u8], text: &mut [u8], answer: &mut [u64]) -> u64 {
    unsafe {
        declared::fikrem_slip_text(
            book.as_ptr(),
            book.len(),
            request.as_ptr(),
            request.len(),
            text.as_mut_ptr(),
            text.len(),
            answer.as_mut_ptr(),
            answer.len(),
        )
    }
}

pub fn page(book: &[u8], request: &[u8], out: &mut [u8]) -> u64 {
    unsafe {
        declared::fikrem_page(book.as_ptr(), book.len(), request.as_ptr(), request.len(), out.as_mut_ptr(), out.len())
    }
}

pub fn judge_book(book: &[u8]) -> u64 {
    unsafe { declared::fikrem_judge_book(book.as_ptr(), book.len()) }
}

pub fn judge_request(request: &[u8]) -> u64 {
    unsafe { declared::fikrem_judge_request(request.as_ptr(), request.len()) }
}

pub fn new_ledger(out: &mut [u8], answer: &mut [u64]) -> u64 {
    unsafe { declared::fikrem_new_ledger(out.as_mut_ptr(), out.len(), answer.as_mut_ptr(), answer.len()) }
}

pub fn accept(
    stored: &[u8],
    table_size: usize,
    book: &[u8],
    request: &[u8],
    out: &mut [u8],
    figures: &mut [i64],
    answer: &mut [u64],
) -> u64 {
    unsafe {
        declared::fikrem_accept(
            stored.as_ptr(),
            stored.len(),
            table_size,
            book.as_ptr(),
            book.len(),
            request.as_ptr(),
            request.len(),
            out.as_mut_ptr(),
            out.len(),
            figures.as_mut_ptr(),
            figures.len(),
            answer.as_mut_ptr(),
            answer.len(),
        )
    }
}

pub fn pay_out(stored: &[u8], table_size: usize, entry: u32, amount: u64, out: &mut [u8], answer: &mut [u64]) -> u64 {
    unsafe {
        declared::fikrem_pay_out(
            stored.as_ptr(),
            stored.len(),
            table_size,
            entry,
            amount,
            out.as_mut_ptr(),
            out.len(),
            answer.as_mut_ptr(),
            answer.len(),
        )
    }
}

pub fn hand_over(stored: &[u8], table_size: usize, entry: u32, person: u32, out: &mut [u8], answer: &mut [u64]) -> u64 {
    unsafe {
        declared::fikrem_hand_over(
            stored.as_ptr(),
            stored.len(),
            table_size,
            entry,
            person,
            out.as_mut_ptr(),
            out.len(),
            answer.as_mut_ptr(),
            answer.len(),
        )
    }
}

pub fn clear(stored: &[u8], table_size: usize, month: u16, out: &mut [u8], answer: &mut [u64]) -> u64 {
    unsafe {
        declared::fikrem_clear(
            stored.as_ptr(),
            stored.len(),
            table_size,
            month,
            out.as_mut_ptr(),
            out.len(),
            answer.as_mut_ptr(),
            answer.len(),
        )
    }
}

pub fn judge_ledger(stored: &[u8], table_size: usize, answer: &mut [u64]) -> u64 {
    unsafe {
        declared::fikrem_judge_ledger(stored.as_ptr(), stored.len(), table_size, answer.as_mut_ptr(), answer.len())
    }
}

pub fn move_to_new(file: &[u8], out: &mut [u8], answer: &mut [u64]) -> u64 {
    unsafe {
        declared::fikrem_move_to_new(
            file.as_ptr(),
            file.len(),
            out.as_mut_ptr(),
            out.len(),
            answer.as_mut_ptr(),
            answer.len(),
        )
    }
}

pub fn move_back(file: &[u8], out: &mut [u8], answer: &mut [u64]) -> u64 {
    unsafe {
        declared::fikrem_move_back(
            file.as_ptr(),
            file.len(),
            out.as_mut_ptr(),
            out.len(),
            answer.as_mut_ptr(),
            answer.len(),
        )
    }
}

pub fn check(bytes: &[u8]) -> u32 {
    unsafe { declared::fikrem_check(bytes.as_ptr(), bytes.len()) }
}
