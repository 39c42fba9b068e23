//! The functions of share_sheet_c as interface/share_sheet.h declares them, with its rules for
//! pointers. Nothing tests that the two agree but the tests that call them.

extern "C" {
    pub fn share_sheet_read(
        file: *const u8,
        file_len: usize,
        table: *mut u16,
        table_len: usize,
        buses: *mut usize,
        lines: *mut usize,
    ) -> u32;

    pub fn share_sheet_write(
        table: *const u16,
        table_len: usize,
        file: *mut u8,
        file_len: usize,
        bytes: *mut usize,
    ) -> u32;

    pub fn share_sheet_degree(
        table: *const u16,
        table_len: usize,
        bus: usize,
        degree: *mut usize,
    ) -> u32;

    pub fn share_sheet_row(
        table: *const u16,
        table_len: usize,
        bus: usize,
        start: *mut usize,
        entries: *mut usize,
    ) -> u32;

    pub fn share_sheet_shares(
        table: *const u16,
        table_len: usize,
        numerators: *mut u64,
        numerators_len: usize,
        over: *mut u64,
    ) -> u32;

    pub fn share_sheet_share(
        table: *const u16,
        table_len: usize,
        bus: usize,
        numerator: *mut u64,
        over: *mut u64,
    ) -> u32;

    pub fn share_sheet_outage(
        table: *const u16,
        table_len: usize,
        line: usize,
        changes: *mut i64,
        changes_len: usize,
        over: *mut u64,
    ) -> u32;

    pub fn share_sheet_cancel(
        numerator: u64,
        denominator: u64,
        top: *mut u64,
        bottom: *mut u64,
    ) -> u32;

    pub fn share_sheet_line(
        table: *const u16,
        table_len: usize,
        line: usize,
        text: *mut u8,
        text_len: usize,
        bytes: *mut usize,
    ) -> u32;

    pub fn share_sheet_whole(
        table: *const u16,
        table_len: usize,
        text: *mut u8,
        text_len: usize,
        bytes: *mut usize,
    ) -> u32;

    pub fn share_sheet_max_buses() -> usize;
    pub fn share_sheet_max_entries() -> usize;
    pub fn share_sheet_max_bytes() -> usize;
    // the same number, as a test shows
    #[cfg(test)]
    pub fn share_sheet_max_file() -> usize;
    pub fn share_sheet_max_text() -> usize;
}

/// What is given through single pointers: the safe functions show it of accepted calls only, so it
/// is tested here that refused ones leave it as it was.
#[cfg(test)]
mod tests {
    use super::*;

    /// Three buses in a row, each with need 1.
    const PATH: [u8; 15] = [3, 0, 1, 1, 1, 2, 0, 0, 0, 1, 0, 1, 0, 2, 0];
    const TABLE: [u16; 15] = [3, 1, 1, 1, 1, 1, 1, 0, 1, 3, 4, 1, 0, 2, 1];
    /// Path's table with a wrong last entry: bus 2 names bus 0, which does not name it.
    const NONE: [u16; 15] = [3, 1, 1, 1, 1, 1, 1, 0, 1, 3, 4, 1, 0, 2, 0];

    // No call gives these for Path.
    const A: usize = 0xA5A5_A5A5_A5A5_A5A5;
    const B: usize = 0x5A5A_5A5A_5A5A_5A5A;
    const C: u64 = 0xA5A5_5A5A_A5A5_5A5A;
    const D: u64 = 0x5A5A_A5A5_5A5A_A5A5;

    fn read(file: &[u8], table: &mut [u16]) -> (u32, usize, usize) {
        let (mut buses, mut lines) = (A, B);
        // SAFETY: pointers and lengths are those of live slices and of single numbers, and nothing
        // that is lent for writing is lent twice.
        let number = unsafe {
            share_sheet_read(
                file.as_ptr(),
                file.len(),
                table.as_mut_ptr(),
                table.len(),
                &mut buses,
                &mut lines,
            )
        };
        (number, buses, lines)
    }

    #[test]
    fn counts_of_read() {
        let mut table = [7; 15];
        assert_eq!(read(&PATH, &mut table), (0, 3, 2));
        assert_eq!(table, TABLE);
        assert_eq!(read(&PATH[..14], &mut table), (1, A, B));
        let mut wrong_end = PATH;
        wrong_end[13] = 3;
        assert_eq!(read(&wrong_end, &mut table), (6, A, B));
        assert_eq!(read(&PATH, &mut table[..14]), (10, A, B));
        assert_eq!(table, TABLE);
        // the pair of the first record again, turned round and as it stands
        let mut turned = PATH;
        turned[13] = 0;
        assert_eq!(read(&turned, &mut table), (15, A, B));
        // need 3 at bus 1
        let mut needing = PATH;
        needing[3] = 3;
        assert_eq!(read(&needing, &mut table), (17, A, B));
        assert_eq!(read(&needing, &mut []), (17, A, B));
        // weights cut short, too few of them, one out of range, and a byte behind them
        for (weights, refusal) in [
            (&[3][..], 1),
            (&[2, 0, 1, 0, 5, 0], 19),
            (&[3, 0, 1, 0, 5, 0], 1),
            (&[3, 0, 1, 0, 5, 0, 233, 3], 20),
            (&[3, 0, 1, 0, 5, 0, 2, 0, 0], 5),
        ] {
            assert_eq!(read(&[&PATH, weights].concat(), &mut table), (refusal, A, B));
        }
        assert_eq!(table, TABLE);
        let mut repeat = PATH;
        repeat.copy_within(7..11, 11);
        assert_eq!(read(&repeat, &mut table[..12]), (10, A, B));
        assert_eq!(table, TABLE);
        assert_eq!(read(&repeat, &mut table), (0, 3, 1));
        assert_eq!(table, [3, 1, 1, 1, 1, 1, 1, 0, 1, 2, 2, 1, 0, 2, 1]);
    }

    #[test]
    fn bytes_of_a_file() {
        let write = |table: &[u16], file: &mut [u8]| {
            let mut bytes = A;
            // SAFETY: as in `read`.
            let number = unsafe {
                share_sheet_write(
                    table.as_ptr(),
                    table.len(),
                    file.as_mut_ptr(),
                    file.len(),
                    &mut bytes,
                )
            };
            (number, bytes)
        };
        let mut file = [7; 17];
        assert_eq!(write(&TABLE, &mut file[..14]), (16, A));
        assert_eq!(write(&TABLE, &mut []), (16, A));
        assert_eq!(write(&NONE, &mut file), (11, A));
        assert_eq!(write(&NONE, &mut []), (11, A));
        assert_eq!(file, [7; 17]);
        assert_eq!(write(&TABLE, &mut file), (0, 15));
        assert_eq!(file[..15], PATH);
        assert_eq!(file[15..], [7, 7]);
    }

    #[test]
    fn bytes_of_every_file() {
        // SAFETY: these functions take nothing and look at nothing.
        let (written, read) = unsafe { (share_sheet_max_file(), share_sheet_max_bytes()) };
        assert_eq!((written, read), (25_094, 25_094));
    }

    #[test]
    fn degree_and_row() {
        let degree = |table: &[u16], bus| {
            let mut degree = A;
            // SAFETY: as in `read`.
            let number =
                unsafe { share_sheet_degree(table.as_ptr(), table.len(), bus, &mut degree) };
            (number, degree)
        };
        let row = |table: &[u16], bus| {
            let (mut start, mut entries) = (A, B);
            // SAFETY: as in `read`.
            let number = unsafe {
                share_sheet_row(table.as_ptr(), table.len(), bus, &mut start, &mut entries)
            };
            (number, start, entries)
        };
        for (bus, start, entries) in [(0, 11, 1), (1, 12, 2), (2, 14, 1)] {
            assert_eq!(degree(&TABLE, bus), (0, entries));
            assert_eq!(row(&TABLE, bus), (0, start, entries));
        }
        assert_eq!(degree(&TABLE, 3), (13, A));
        assert_eq!(degree(&NONE, 0), (11, A));
        assert_eq!(row(&TABLE, 3), (13, A, B));
        assert_eq!(row(&NONE, 0), (11, A, B));
    }

    #[test]
    fn denominator_of_shares() {
        let shares = |table: &[u16], numerators: &mut [u64]| {
            let mut over = C;
            // SAFETY: as in `read`.
            let number = unsafe {
                share_sheet_shares(
                    table.as_ptr(),
                    table.len(),
                    numerators.as_mut_ptr(),
                    numerators.len(),
                    &mut over,
                )
            };
            (number, over)
        };
        let mut numerators = [7; 3];
        assert_eq!(shares(&TABLE, &mut numerators[..2]), (12, C));
        assert_eq!(shares(&NONE, &mut numerators), (11, C));
        assert_eq!(numerators, [7; 3]);
        assert_eq!(shares(&TABLE, &mut numerators), (0, 6));
        assert_eq!(numerators, [5, 8, 5]);
    }

    #[test]
    fn share_and_denominator() {
        let share = |table: &[u16], bus| {
            let (mut numerator, mut over) = (C, D);
            // SAFETY: as in `read`.
            let number = unsafe {
                share_sheet_share(table.as_ptr(), table.len(), bus, &mut numerator, &mut over)
            };
            (number, numerator, over)
        };
        assert_eq!(share(&TABLE, 1), (0, 8, 6));
        assert_eq!(share(&TABLE, 3), (13, C, D));
        assert_eq!(share(&NONE, 1), (11, C, D));
    }

    #[test]
    fn denominator_of_changes() {
        let outage = |table: &[u16], line, changes: &mut [i64]| {
            let mut over = C;
            // SAFETY: as in `read`.
            let number = unsafe {
                share_sheet_outage(
                    table.as_ptr(),
                    table.len(),
                    line,
                    changes.as_mut_ptr(),
                    changes.len(),
                    &mut over,
                )
            };
            (number, over)
        };
        let mut changes = [7; 4];
        assert_eq!(outage(&TABLE, 2, &mut changes), (18, C));
        assert_eq!(outage(&TABLE, usize::MAX, &mut changes[..2]), (18, C));
        assert_eq!(outage(&TABLE, 1, &mut changes[..2]), (12, C));
        assert_eq!(outage(&NONE, 0, &mut changes), (11, C));
        assert_eq!(outage(&NONE, 2, &mut []), (11, C));
        assert_eq!(changes, [7; 4]);
        assert_eq!(outage(&TABLE, 0, &mut changes), (0, 6));
        assert_eq!(changes, [1, -2, 1, 7]);
    }

    #[test]
    fn cancelled_pair() {
        let cancel = |numerator, denominator| {
            let (mut top, mut bottom) = (C, D);
            // SAFETY: as in `read`.
            let number =
                unsafe { share_sheet_cancel(numerator, denominator, &mut top, &mut bottom) };
            (number, top, bottom)
        };
        assert_eq!(cancel(8, 6), (0, 4, 3));
        assert_eq!(cancel(0, 5), (0, 0, 1));
        assert_eq!(cancel(0, 0), (9, C, D));
        assert_eq!(cancel(8, 0), (9, C, D));
    }

    #[test]
    fn bytes_of_a_line() {
        let line = |table: &[u16], line, text: &mut [u8]| {
            let mut bytes = A;
            // SAFETY: as in `read`.
            let number = unsafe {
                share_sheet_line(
                    table.as_ptr(),
                    table.len(),
                    line,
                    text.as_mut_ptr(),
                    text.len(),
                    &mut bytes,
                )
            };
            (number, bytes)
        };
        let mut text = *b"- - - - - - - ";
        assert_eq!(line(&TABLE, 4, &mut text), (13, A));
        assert_eq!(line(&TABLE, 2, &mut text[..11]), (14, A));
        assert_eq!(line(&NONE, 2, &mut text), (11, A));
        assert_eq!(text, *b"- - - - - - - ");
        assert_eq!(line(&TABLE, 2, &mut text), (0, 12));
        assert_eq!(text, *b"1 1 2 8 4/3\n- ");
    }

    #[test]
    fn bytes_of_a_whole_sheet() {
        let whole = |table: &[u16], text: &mut [u8]| {
            let mut bytes = A;
            // SAFETY: as in `read`.
            let number = unsafe {
                share_sheet_whole(
                    table.as_ptr(),
                    table.len(),
                    text.as_mut_ptr(),
                    text.len(),
                    &mut bytes,
                )
            };
            (number, bytes)
        };
        let mut text = [7; 60];
        assert_eq!(whole(&TABLE, &mut text[..58]), (14, A));
        assert_eq!(whole(&NONE, &mut text), (11, A));
        assert_eq!(text, [7; 60]);
        assert_eq!(whole(&TABLE, &mut text), (0, 59));
        assert!(text.starts_with(b"buses 3 lines 2 over 6\n0 1 1 5 5/6\n1 1 2 8 4/3\n"));
        assert!(text.ends_with(b"2 1 1 5 5/6\n\x07"));
    }
}
