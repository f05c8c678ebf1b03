//! The C boundary: the crate's one module with `unsafe`, because the library is called as C.
#![allow(unsafe_code)]

use crate::Ledger;

/// The library's reply: its number, then what it carries, 0 where there is less.
#[repr(C)]
pub(crate) struct Reply {
    pub(crate) number: u32,
    pub(crate) first: u32,
    pub(crate) second: u32,
}

unsafe extern "C" {
    fn telhavina_judge(
        table: *const u32,
        table_len: usize,
        order: *const u32,
        order_len: usize,
        figures: *mut u32,
        figures_len: usize,
    ) -> Reply;
    fn telhavina_find(
        table: *const u32,
        table_len: usize,
        order: *mut u32,
        order_len: usize,
    ) -> Reply;
    fn telhavina_book_read(
        book: *const u8,
        book_len: usize,
        words: *mut u32,
        words_len: usize,
    ) -> Reply;
    fn telhavina_book_write(
        words: *const u32,
        words_len: usize,
        book: *mut u8,
        book_len: usize,
    ) -> Reply;
    fn telhavina_claim(ledger: *mut Ledger, row: *const u32, row_len: usize, edition: u32)
        -> Reply;
    fn telhavina_withdraw(ledger: *mut Ledger, row_number: u32, edition: u32) -> Reply;
    // Safe: it is lent nothing, and any words are a `Ledger`.
    safe fn telhavina_ledger_fresh() -> Ledger;
}

/// The library's reply on this table and order; `figures` is lent to it for the call.
pub(crate) fn judge(table: &[u32], order: &[u32], figures: &mut [u32]) -> Reply {
    // SAFETY: each pointer and length come from one slice, so the words are there, aligned and
    // readable, and those of `figures` writable and shared with neither of the others. The
    // library checks lengths before words, looks at no word past a length and so at none of an
    // empty slice, and keeps no pointer after it returns.
    unsafe {
        telhavina_judge(
            table.as_ptr(),
            table.len(),
            order.as_ptr(),
            order.len(),
            figures.as_mut_ptr(),
            figures.len(),
        )
    }
}

/// The library's reply on this table; `order` is lent to it for the call.
pub(crate) fn find(table: &[u32], order: &mut [u32]) -> Reply {
    // SAFETY: as for judging. The words of `order` are writable and not shared with the table.
    unsafe { telhavina_find(table.as_ptr(), table.len(), order.as_mut_ptr(), order.len()) }
}

/// The library's reply on this book; `words` is lent to it for the call.
pub(crate) fn book_read(book: &[u8], words: &mut [u32]) -> Reply {
    // SAFETY: as for judging. The words are writable and not shared with the book.
    unsafe { telhavina_book_read(book.as_ptr(), book.len(), words.as_mut_ptr(), words.len()) }
}

/// The library's reply on these words; `book` is lent to it for the call.
pub(crate) fn book_write(words: &[u32], book: &mut [u8]) -> Reply {
    // SAFETY: as for judging. The bytes of `book` are writable and not shared with the words.
    unsafe { telhavina_book_write(words.as_ptr(), words.len(), book.as_mut_ptr(), book.len()) }
}

/// The library's reply on a claim of this row; `ledger` is lent to it for the call.
pub(crate) fn claim(ledger: &mut Ledger, row: &[u32], edition: u32) -> Reply {
    // SAFETY: the row is lent as for judging. The ledger lies in memory as the C header says,
    // aligned, readable and writable, and is not shared with the row; any words in it are a ledger
    // or refused. The library writes to no other place, and keeps no pointer after it returns.
    unsafe { telhavina_claim(ledger, row.as_ptr(), row.len(), edition) }
}

/// The library's reply on the withdrawal of this row; `ledger` is lent to it for the call.
pub(crate) fn withdraw(ledger: &mut Ledger, row: u32, edition: u32) -> Reply {
    // SAFETY: the ledger is lent as for claiming.
    unsafe { telhavina_withdraw(ledger, row, edition) }
}

/// The library's fresh ledger.
pub(crate) fn ledger_fresh() -> Ledger {
    telhavina_ledger_fresh()
}

#[cfg(test)]
mod tests {
    use tables::{Call, History};

    use super::{book_read, book_write, claim, find, judge, withdraw, Reply};
    use crate::Ledger;

    /// How many numbers the reply with this number carries.
    fn carried(number: u32) -> u32 {
        match number {
            3 | 8 => 2,
            6 | 7 | 22 | 101..=106 => 1,
            _ => 0,
        }
    }

    fn rest_is_0(reply: Reply) -> bool {
        let carried = carried(reply.number);
        (carried >= 1 || reply.first == 0) && (carried == 2 || reply.second == 0)
    }

    /// The replies to the calls of this history.
    fn replies(history: &History) -> Vec<Reply> {
        let start = &history.start;
        let (words, held, edition) = (start.words, start.held, start.edition);
        let mut ledger = Ledger { words, held, edition };
        let put = |call: &Call| {
            let Ledger { held, edition, .. } = ledger;
            match call {
                Call::Claim { row, seen } => claim(&mut ledger, row, seen.edition(edition)),
                Call::Withdrawal { row, seen } => {
                    withdraw(&mut ledger, row.row(held), seen.edition(edition))
                }
            }
        };
        history.calls.iter().map(put).collect()
    }

    // The C interface: a place of the reply that carries nothing is 0.
    #[test]
    fn what_is_not_carried_is_0() {
        for mut case in (0..20_000).map(tables::case) {
            let reply = judge(&case.table, &case.order, &mut case.figures);
            assert!(rest_is_0(reply), "{case}");
        }
        for mut case in (0..20_000).map(tables::find_case) {
            let reply = find(&case.table, &mut case.order);
            assert!(rest_is_0(reply), "{case}");
        }
        for mut case in (0..20_000).map(tables::read_case) {
            let reply = book_read(&case.book, &mut case.words);
            assert!(rest_is_0(reply), "{case}");
        }
        for mut case in (0..20_000).map(tables::write_case) {
            let reply = book_write(&case.words, &mut case.book);
            assert!(rest_is_0(reply), "{case}");
        }
        for history in (0..2_000).map(tables::history) {
            assert!(replies(&history).into_iter().all(rest_is_0), "{history}");
        }
    }
}
