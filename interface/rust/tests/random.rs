//! The library against the plain second reading, on files, tables and fractions made at random,
//! sound and damaged: the answer and every lent entry must be the same.

mod made;
mod plain;

use made::{highest_need, Network, Random};
use share_sheet::{limits, Counts, Fraction, Refusal};
use std::fmt::Debug;

const FILES: usize = 130_000;
const TABLES: usize = 130_000;
const ROUND_TRIPS: usize = 100_000;
const OUTAGES: usize = 100_000;
const FRACTIONS: usize = 500_000;

/// How often a call was accepted (entry 0) and refused with each number.
#[derive(Clone, Copy, Default)]
struct Tally([usize; 21]);

impl Tally {
    fn count<A>(&mut self, answer: &Result<A, u8>) {
        self.0[*answer.as_ref().err().unwrap_or(&0) as usize] += 1;
    }

    /// Each of the refusals, and no other, occurred at least 100 times, and the call was accepted
    /// at least 5,000 times.
    fn shows(&self, call: &str, refusals: &[usize]) {
        println!("{call}: {:?}", self.0);
        assert!(self.0[0] >= 5_000, "{call} was accepted {} times", self.0[0]);
        for (number, &times) in self.0.iter().enumerate().skip(1) {
            let enough = if refusals.contains(&number) { times >= 100 } else { times == 0 };
            assert!(enough, "{call} was refused with {number} {times} times");
        }
    }
}

#[derive(Default)]
struct Tallies {
    read: Tally,
    write: Tally,
    degree: Tally,
    row: Tally,
    shares: Tally,
    share: Tally,
    outage: Tally,
    /// The network does not have the line, and too few entries are lent besides.
    no_line_and_short: usize,
    line: Tally,
    whole: Tally,
    /// Buses, each time that a table is scored: the need is above the degree, as it is without
    /// lines, equal to it, 1, or between them.
    cases: [usize; 4],
    /// Lines whose ends have different weights, each time that a table is scored.
    unequal: usize,
}

impl Tallies {
    /// Counts the buses of a table that holds a network.
    fn count_cases(&mut self, table: &[u16]) {
        let n = table[0] as usize;
        let (needs, behind) = table[1..].split_at(n);
        let (weights, behind) = behind.split_at(n);
        let (starts, links) = behind.split_at(n + 1);
        for (&need, start) in needs.iter().zip(starts.windows(2)) {
            let degree = start[1] - start[0];
            let case = match need {
                _ if need > degree => 0,
                _ if need == degree => 1,
                1 => 2,
                _ => 3,
            };
            self.cases[case] += 1;
        }
        for (weight, start) in weights.iter().zip(starts.windows(2)) {
            let row = &links[start[0] as usize..start[1] as usize];
            let differs = |other: &&u16| weights[**other as usize] != *weight;
            self.unequal += row.iter().filter(differs).count();
        }
    }

    fn show_table_calls(&self) {
        println!("cases: {:?}", self.cases);
        assert!(self.cases.iter().all(|&times| times >= 100_000), "cases: {:?}", self.cases);
        println!("neighbours of different weights: {}", self.unequal);
        assert!(self.unequal >= 1_000_000, "{}", self.unequal);
        self.write.shows("write", &[11, 16]);
        self.degree.shows("degree", &[11, 13]);
        self.row.shows("row", &[11, 13]);
        self.shares.shows("shares", &[11, 12]);
        self.share.shows("share", &[11, 13]);
        self.outage.shows("outage", &[11, 12, 18]);
        println!("no line and too few entries: {}", self.no_line_and_short);
        assert!(self.no_line_and_short >= 10_000, "{}", self.no_line_and_short);
        self.line.shows("sheet_line", &[11, 13, 14]);
        self.whole.shows("whole_sheet", &[11, 14]);
    }
}

/// How many accepted files name a pair again; how many of these have a bus with 23 neighbours in
/// more records than that, how many as many records as may be, and how many one pair only.
#[derive(Debug, Default)]
struct Repeats {
    files: usize,
    full_buses: usize,
    most_records: usize,
    one_pair: usize,
}

impl Repeats {
    /// Counts an accepted file, whose table is given.
    fn count(&mut self, file: &[u8], table: &[u16]) {
        let n = table[0] as usize;
        let starts = &table[1 + 2 * n..];
        let Network { records, .. } = network(file);
        let mut standing = vec![0; n];
        for &(a, b) in &records {
            standing[a as usize] += 1;
            standing[b as usize] += 1;
        }
        let lines = starts[n] as usize / 2;
        if records.len() > lines {
            let is_full = |bus| starts[bus + 1] - starts[bus] == 23 && standing[bus] > 23;
            self.files += 1;
            self.full_buses += usize::from((0..n).any(is_full));
            self.most_records += usize::from(records.len() == made::MOST_RECORDS);
            self.one_pair += usize::from(lines == 1);
        }
    }

    fn show(&self) {
        println!("{self:?}");
        assert!(self.files >= 5_000 && self.full_buses >= 1_000, "{self:?}");
        assert!(self.most_records >= 100 && self.one_pair >= 1_000, "{self:?}");
    }
}

/// The numbers of two bytes that stand one behind another.
fn numbers(bytes: &[u8]) -> Vec<u16> {
    bytes.chunks_exact(2).map(|pair| u16::from_le_bytes([pair[0], pair[1]])).collect()
}

/// The needs, the records and what stands behind them, if a file has all of its records.
fn parts(file: &[u8]) -> Option<(&[u8], Vec<(u16, u16)>, &[u8])> {
    let number = |at: usize| Some(numbers(file.get(at..at + 2)?)[0] as usize);
    let n = number(0)?;
    let end = 4 + n + 4 * number(2 + n)?;
    let records = numbers(file.get(4 + n..end)?);
    let records = records.chunks_exact(2).map(|ends| (ends[0], ends[1])).collect();
    Some((&file[2..2 + n], records, &file[end..]))
}

/// The needs, records and weights of a file whose sections are sound.
fn network(file: &[u8]) -> Network {
    let (needs, records, behind) = parts(file).expect("its sections are sound");
    let weights = behind.get(2..).map(numbers);
    Network { needs: needs.to_vec(), records, weights }
}

/// Whether a record names a bus that is not there, or one bus twice.
fn has_wrong_end(n: usize, (a, b): (u16, u16)) -> bool {
    a == b || a.max(b) as usize >= n
}

/// The places of records that name their higher bus first, or are below the one before them.
fn out_of_order(records: &[(u16, u16)]) -> Vec<usize> {
    let is_out = |&at: &usize| {
        let (a, b) = records[at];
        a > b || (a, b) < before(records, at)
    };
    (0..records.len()).filter(is_out).collect()
}

/// The record before one; in front of the first, a pair that no record is below.
fn before(records: &[(u16, u16)], at: usize) -> (u16, u16) {
    at.checked_sub(1).map_or((0, 0), |at| records[at])
}

/// How often records were in order, and out of it in each way that counts.
#[derive(Debug, Default)]
struct Orders {
    /// Accepted.
    accepted: usize,
    /// Refused with 15, and sound if its records were put in order.
    sound_but_for_order: usize,
    /// Refused with 15 because of the first record alone, the second alone, the last alone.
    first_alone: usize,
    second_alone: usize,
    last_alone: usize,
    /// Refused with 15, and no record is below the one before it: some name their higher bus first.
    higher_first: usize,
    /// Refused with 15, and the lower bus always comes first: records are below the one before
    /// them by their first bus, while the second is above; by their second, while the first is equal.
    below_by_first: usize,
    below_by_second: usize,
    /// Refused with 15 because of one record that is named again apart from its equals.
    equal_apart: usize,
    /// Refused with 15 though a bus has more than 23 neighbours: it has them before the first
    /// record that is out of order; only with those behind.
    crowded_before: usize,
    crowded_behind: usize,
    /// Refused with 6 though records are out of order: the first wrong end stands before the first
    /// of these; behind it.
    wrong_end_before: usize,
    wrong_end_behind: usize,
}

impl Orders {
    /// Counts a file, whose answer is given.
    fn count<A>(&mut self, file: &[u8], answer: &Result<A, u8>) {
        match answer {
            Ok(_) => self.accepted += 1,
            Err(6) => self.count_wrong_end(&network(file)),
            Err(15) => self.count_out_of_order(&network(file)),
            Err(_) => {}
        }
    }

    fn count_wrong_end(&mut self, Network { needs, records, .. }: &Network) {
        let is_wrong = |&record: &(u16, u16)| has_wrong_end(needs.len(), record);
        let wrong_end = records.iter().position(is_wrong).expect("6 has a cause");
        if let Some(&first) = out_of_order(records).first() {
            self.wrong_end_before += usize::from(wrong_end < first);
            self.wrong_end_behind += usize::from(wrong_end > first);
        }
    }

    fn count_out_of_order(&mut self, network: &Network) {
        let Network { needs, records, .. } = network;
        let places = out_of_order(records);
        let first = *places.first().expect("15 has a cause");
        self.first_alone += usize::from(places == [0]);
        self.second_alone += usize::from(places == [1]);
        self.last_alone += usize::from(places == [records.len() - 1]);

        let each = |is_so: fn((u16, u16), (u16, u16)) -> bool| {
            usize::from(places.iter().all(|&at| is_so(before(records, at), records[at])))
        };
        self.higher_first += each(|before, record| record >= before);
        self.below_by_first += each(|before, (a, b)| a <= b && a < before.0 && b > before.1);
        self.below_by_second += each(|before, (a, b)| a <= b && a == before.0 && b < before.1);

        let is_again = |&at: &usize| {
            let mut others = records.clone();
            let record = others.remove(at);
            others.contains(&record) && out_of_order(&others).is_empty()
        };
        self.equal_apart += usize::from([first.max(1) - 1, first].iter().any(is_again));

        let is_crowded = |records: &[(u16, u16)]| {
            let (needs, records) = (needs.clone(), records.to_vec());
            let network = Network { needs, records, weights: None };
            network.rows().iter().any(|row| row.len() > 23)
        };
        match (is_crowded(&records[..first]), is_crowded(records)) {
            (true, _) => self.crowded_before += 1,
            (_, true) => self.crowded_behind += 1,
            _ if !unmet(network).is_empty() => {}
            _ => self.sound_but_for_order += 1,
        }
    }

    /// Each way occurred at least 100 times, and most of the files that are sound but for order are
    /// in order.
    fn show(&self) {
        println!("{self:?}");
        assert!(self.accepted > 2 * self.sound_but_for_order, "{self:?}");
        let ways = [
            self.first_alone,
            self.second_alone,
            self.last_alone,
            self.higher_first,
            self.below_by_first,
            self.below_by_second,
            self.equal_apart,
            self.crowded_before,
            self.crowded_behind,
            self.wrong_end_before,
            self.wrong_end_behind,
        ];
        assert!(ways.iter().all(|&times| times >= 100), "{self:?}");
    }
}

/// The need and the degree of each bus whose need cannot be met.
fn unmet(network: &Network) -> Vec<(usize, usize)> {
    let rows = network.rows();
    let buses = network.needs.iter().zip(&rows).filter(|(&need, row)| need > highest_need(row));
    buses.map(|(&need, row)| (need.into(), row.len())).collect()
}

/// How often needs were on either side of what can be met.
#[derive(Debug, Default)]
struct Needs {
    /// Accepted, and a need equals the degree of its bus; a bus without lines has need 1.
    equal: usize,
    without_lines: usize,
    /// Refused with 17 because of one bus alone: its need is one above its degree; it has no line,
    /// and need 2.
    one_above: usize,
    two_without_lines: usize,
    /// Refused with 15, and with 7, though a need cannot be met.
    out_of_order: usize,
    crowded: usize,
}

impl Needs {
    /// Counts a file, whose answer is given.
    fn count<A>(&mut self, file: &[u8], answer: &Result<A, u8>) {
        let unmet = || unmet(&network(file));
        match answer {
            Ok(_) => {
                let network = network(file);
                let rows = network.rows();
                let mut buses = network.needs.iter().zip(&rows);
                self.equal += usize::from(buses.any(|(&need, row)| need as usize == row.len()));
                self.without_lines += usize::from(rows.iter().any(Vec::is_empty));
            }
            Err(7) => self.crowded += usize::from(!unmet().is_empty()),
            Err(15) => self.out_of_order += usize::from(!unmet().is_empty()),
            Err(17) => match unmet()[..] {
                [(2, 0)] => self.two_without_lines += 1,
                [(need, degree)] => self.one_above += usize::from(need == degree + 1),
                _ => {}
            },
            Err(_) => {}
        }
    }

    /// Either side of the limit occurred at least 1,000 times, and each earlier cause at least 100.
    fn show(&self) {
        println!("{self:?}");
        let met = [self.equal, self.without_lines];
        let not_met = [self.one_above, self.two_without_lines];
        assert!(met.iter().chain(&not_met).all(|&times| times >= 1_000), "{self:?}");
        assert!(self.out_of_order >= 100 && self.crowded >= 100, "{self:?}");
    }
}

/// How often files had weights or not, and what was wrong behind the records.
#[derive(Debug, Default)]
struct Weights {
    /// Accepted without weights; with weight 1 at each bus; with others; with the highest among them.
    none: usize,
    ones: usize,
    others: usize,
    highest: usize,
    /// Refused with 1, since the file ends inside the weight count; inside the weights, before the
    /// last byte of them and of the last byte alone.
    count_cut: usize,
    weights_cut: usize,
    last_byte_cut: usize,
    /// Refused with 19: the count is one below n; one above it; another. There are as many weights
    /// as the count says; fewer than n, so that the file ends inside the weights besides.
    one_below: usize,
    one_above: usize,
    other_count: usize,
    as_counted: usize,
    counted_and_cut: usize,
    /// Refused with 20 because of one weight alone: it is 0; it is one above the highest; it is
    /// that of the first of several buses; of the last.
    zero: usize,
    one_too_high: usize,
    first_alone: usize,
    last_alone: usize,
    /// Refused with 20, and bytes follow the weights.
    weight_and_more: usize,
    /// Refused with 5: one byte follows the weights; several do.
    byte_more: usize,
    bytes_more: usize,
    /// Refused because of what is behind the records, though a record has a wrong end.
    wrong_end_too: usize,
    /// Refused because of the records or the needs, with weights behind them.
    sound_behind: usize,
}

impl Weights {
    /// Counts a file, whose answer is given.
    fn count<A>(&mut self, file: &[u8], answer: &Result<A, u8>) {
        let Some((needs, records, behind)) = parts(file) else { return };
        match answer {
            Ok(_) => self.count_accepted(network(file).weights),
            Err(_) if behind.is_empty() => {}
            Err(6 | 7 | 15 | 17) => self.sound_behind += 1,
            Err(number @ (1 | 5 | 19 | 20)) => {
                let n = needs.len();
                let wrong_end = records.iter().any(|&record| has_wrong_end(n, record));
                self.wrong_end_too += usize::from(wrong_end);
                match number {
                    1 => self.count_cut(n, behind.len()),
                    5 => self.count_more(behind.len() - (2 + 2 * n)),
                    19 => self.count_wrong_count(n, numbers(behind)[0].into(), behind.len() - 2),
                    _ => self.count_wrong_weight(n, &behind[2..]),
                }
            }
            Err(_) => {}
        }
    }

    fn count_accepted(&mut self, weights: Option<Vec<u16>>) {
        match weights {
            None => self.none += 1,
            Some(weights) if weights.iter().all(|&weight| weight == 1) => self.ones += 1,
            Some(weights) => {
                self.others += 1;
                self.highest += usize::from(weights.contains(&1000));
            }
        }
    }

    /// Counts a file that has so many bytes behind its records, and ends there too early.
    fn count_cut(&mut self, n: usize, bytes: usize) {
        self.count_cut += usize::from(bytes == 1);
        self.weights_cut += usize::from(bytes > 1 && bytes < 1 + 2 * n);
        self.last_byte_cut += usize::from(bytes == 1 + 2 * n);
    }

    /// Counts a file with so many bytes behind its weights.
    fn count_more(&mut self, bytes: usize) {
        self.byte_more += usize::from(bytes == 1);
        self.bytes_more += usize::from(bytes > 1);
    }

    /// Counts a file with this weight count, and so many bytes behind it.
    fn count_wrong_count(&mut self, n: usize, count: usize, bytes: usize) {
        self.one_below += usize::from(count + 1 == n);
        self.one_above += usize::from(count == n + 1);
        self.other_count += usize::from(count.abs_diff(n) > 1);
        self.as_counted += usize::from(bytes == 2 * count);
        self.counted_and_cut += usize::from(bytes < 2 * n);
    }

    /// Counts a file with these bytes behind its weight count.
    fn count_wrong_weight(&mut self, n: usize, bytes: &[u8]) {
        let weights = numbers(&bytes[..2 * n]).into_iter().enumerate();
        let mut wrong = weights.filter(|&(_, weight)| weight == 0 || weight > 1000);
        let (bus, weight) = wrong.next().expect("20 has a cause");
        if wrong.next().is_none() {
            self.zero += usize::from(weight == 0);
            self.one_too_high += usize::from(weight == 1001);
            self.first_alone += usize::from(n > 1 && bus == 0);
            self.last_alone += usize::from(n > 1 && bus == n - 1);
        }
        self.weight_and_more += usize::from(bytes.len() > 2 * n);
    }

    /// Each way occurred at least 100 times, and accepted files of each kind at least 2,000 times.
    fn show(&self) {
        println!("{self:?}");
        let accepted = [self.none, self.ones, self.others, self.highest];
        assert!(accepted.iter().all(|&times| times >= 2_000), "{self:?}");
        let ways = [
            self.count_cut,
            self.weights_cut,
            self.last_byte_cut,
            self.one_below,
            self.one_above,
            self.other_count,
            self.as_counted,
            self.counted_and_cut,
            self.zero,
            self.one_too_high,
            self.first_alone,
            self.last_alone,
            self.weight_and_more,
            self.byte_more,
            self.bytes_more,
            self.wrong_end_too,
            self.sound_behind,
        ];
        assert!(ways.iter().all(|&times| times >= 100), "{self:?}");
    }
}

/// Lends slices that hold the same to the library and to the plain reading, and tests that answer
/// and contents are the same afterwards, that a refused call changed nothing, and that entries
/// before and behind the slice are as they were. Gives the answer, and what the slice then holds.
fn alike<E: Copy + PartialEq + Debug, A: PartialEq + Debug>(
    held: &[E],
    mark: E,
    library: impl FnOnce(&mut [E]) -> Result<A, Refusal>,
    plain: impl FnOnce(&mut [E]) -> Result<A, u8>,
) -> (Result<A, u8>, Vec<E>) {
    let guard = [mark; 5];
    let mut lent = [&guard, held, &guard].concat();
    let mut copy = held.to_vec();
    let inner = guard.len()..guard.len() + held.len();
    let answer = library(&mut lent[inner.clone()]).map_err(Refusal::number);
    let wanted = plain(&mut copy);
    assert_eq!(answer, wanted);
    assert_eq!(lent[inner.clone()], copy);
    assert_eq!([&lent[..inner.start], &lent[inner.end..]], [&guard, &guard]);
    if answer.is_err() {
        assert_eq!(copy, held);
    }
    (answer, copy)
}

/// Marks that differ from entry to entry.
fn marks<E: From<u8>>(length: usize) -> Vec<E> {
    (0..length).map(|at| E::from(0xA5 ^ (at * 37) as u8)).collect()
}

/// Reads a file into a slice that holds `held`.
fn read(
    file: &[u8],
    held: &[u16],
    tallies: &mut Tallies,
) -> (Result<(usize, usize), u8>, Vec<u16>) {
    let library = |table: &mut [u16]| {
        let Counts { buses, lines } = share_sheet::read(file, table)?;
        Ok((buses, lines))
    };
    let (answer, table) = alike(held, 0xA5A5, library, |table| plain::read(file, table));
    tallies.read.count(&answer);
    (answer, table)
}

/// Makes every call on a table.
fn call_all(table: &[u16], random: &mut Random, tallies: &mut Tallies) {
    let before = table.to_vec();
    let mut buffer = [0; 1 << 16];
    let n = *table.first().unwrap_or(&0) as usize;

    // buses and lines: all of a small network, some of a large one, and numbers out of range, also
    // some whose low bits are a bus
    let small = random.below(n);
    let mut numbers: Vec<usize> = match n {
        0..=6 => (0..n).collect(),
        _ => vec![0, small, random.below(n), n - 1],
    };
    numbers.extend([n, n + 1, small + (1 << 16), small + (1 << 32), usize::MAX]);

    for &bus in &numbers {
        let degree = plain::degree(table, bus);
        assert_eq!(share_sheet::degree(table, bus).map_err(Refusal::number), degree);
        tallies.degree.count(&degree);

        let row = plain::row(table, bus);
        let given = share_sheet::row(table, bus).map_err(Refusal::number);
        // the same part of the same slice
        assert_eq!(given.map(<[u16]>::as_ptr_range), row.map(<[u16]>::as_ptr_range));
        tallies.row.count(&row);

        let share = plain::share(table, bus);
        let given = share_sheet::share(table, bus).map_err(Refusal::number);
        assert_eq!(given.map(|given| (given.numerator, given.denominator)), share);
        tallies.share.count(&share);

        let line = |text: &mut [u8]| plain::sheet_line(table, bus, text);
        for length in byte_lengths(line(&mut buffer), random) {
            let library = |text: &mut [u8]| share_sheet::sheet_line(table, bus, text);
            let (answer, _) = alike(&marks(length), 0xA5, library, line);
            tallies.line.count(&answer);
        }
    }

    for length in [0, n.saturating_sub(1), n, n + 1 + random.below(4)] {
        let library = |numerators: &mut [u64]| share_sheet::shares(table, numerators);
        let plain = |numerators: &mut [u64]| plain::shares(table, numerators);
        let (answer, numerators) = alike(&marks(length), 0xA5A5, library, plain);
        tallies.shares.count(&answer);
        if let Ok(over) = answer {
            tallies.count_cases(table);
            let total: u64 = table[1 + n..1 + 2 * n].iter().map(|&weight| u64::from(weight)).sum();
            assert_eq!(numerators[..n].iter().sum::<u64>(), total * over);
        }
    }

    // lines: all of a small network, some of a large one, and numbers out of range, as above
    let m = table.get(1 + 3 * n).map_or(0, |&end| end as usize / 2);
    let small = random.below(m);
    let mut lines: Vec<usize> = match m {
        0..=3 => (0..m).collect(),
        _ => vec![0, small, m - 1],
    };
    lines.extend([m, m + 1, small + (1 << 16), small + (1 << 32), usize::MAX]);
    for line in lines {
        let short = random.of(&[0, n / 2, n.saturating_sub(1)]);
        for length in [short, n + random.below(4)] {
            let library = |changes: &mut [i64]| share_sheet::outage(table, line, changes);
            let plain = |changes: &mut [i64]| plain::outage(table, line, changes);
            let (answer, _) = alike(&marks(length), -0xA5A5, library, plain);
            tallies.outage.count(&answer);
            tallies.no_line_and_short += usize::from(answer == Err(18) && length < n);
        }
    }

    let whole = |text: &mut [u8]| plain::whole_sheet(table, text);
    for length in byte_lengths(whole(&mut buffer), random) {
        let library = |text: &mut [u8]| share_sheet::whole_sheet(table, text);
        let (answer, _) = alike(&marks(length), 0xA5, library, whole);
        tallies.whole.count(&answer);
    }

    let write = |file: &mut [u8]| plain::write(table, file);
    for length in byte_lengths(write(&mut buffer), random) {
        let library = |file: &mut [u8]| share_sheet::write(table, file);
        let (answer, _) = alike(&marks(length), 0xA5, library, write);
        tallies.write.count(&answer);
    }

    assert_eq!(table, before);
}

/// No bytes, a byte too few, just enough and more, for a text or a file whose byte count or refusal
/// is given.
fn byte_lengths(written: Result<usize, u8>, random: &mut Random) -> Vec<usize> {
    match written {
        Ok(bytes) => vec![0, bytes - 1, bytes, bytes + 1 + random.below(9)],
        Err(_) => vec![0, 40],
    }
}

#[test]
fn files() {
    let mut random = Random::new(0x5EED_0F11_E501);
    let mut tallies = Tallies::default();
    let mut repeats = Repeats::default();
    let mut orders = Orders::default();
    let mut needs = Needs::default();
    let mut weights = Weights::default();
    let mut earlier: Vec<u16> = marks(20);
    for _ in 0..FILES {
        let file = match random.below(20) {
            0 | 1 => made::random_bytes(&mut random),
            kind => {
                let mut network = Network::random(&mut random);
                if random.one_in(6) {
                    network.raise_need(&mut random);
                }
                // none, one or several faults
                for _ in 0..random.below(if kind < 9 { 1 } else { 4 }) {
                    network.damage(&mut random);
                }
                network.order(&mut random);
                let mut file = network.file();
                if random.one_in(8) {
                    let (n, records) = (network.needs.len(), network.records.len());
                    made::damage_weights(&mut file, n, records, &mut random);
                }
                for _ in 0..random.below(if kind < 12 { 1 } else { 3 }) {
                    made::damage_file(&mut file, &mut random);
                }
                file
            }
        };
        // three times as many entries as a file has bytes are enough for its table
        let spare = 3 * file.len() + random.below(9);
        let (answer, _) = read(&file, &marks(spare), &mut tallies);
        orders.count(&file, &answer);
        needs.count(&file, &answer);
        weights.count(&file, &answer);
        match answer {
            Ok((n, m)) => {
                let entries = 3 * n + 2 + 2 * m;
                for length in [0, entries - 1] {
                    assert_eq!(read(&file, &marks(length), &mut tallies).0, Err(10));
                }
                assert_eq!(read(&file, &marks(entries), &mut tallies).0, answer);
                // over the network that was read before, and what then is behind it
                let held = [earlier, marks(entries)].concat();
                let (again, table) = read(&file, &held, &mut tallies);
                assert_eq!(again, answer);
                if random.one_in(6) {
                    call_all(&table, &mut random, &mut tallies);
                }
                repeats.count(&file, &table);
                earlier = table;
                earlier.truncate(entries);
            }
            Err(_) => {
                // the file's own refusal is given, whatever is lent
                for held in [&[], &earlier[..], &marks(random.below(60))[..]] {
                    assert_eq!(read(&file, held, &mut tallies).0, answer);
                }
            }
        }
    }
    tallies.read.shows("read", &[1, 2, 3, 4, 5, 6, 7, 10, 15, 17, 19, 20]);
    repeats.show();
    orders.show();
    needs.show();
    weights.show();
}

#[test]
fn tables() {
    let mut random = Random::new(0x5EED_07AB_1E50);
    let mut tallies = Tallies::default();
    for _ in 0..TABLES {
        let mut table = match random.below(20) {
            0 | 1 => made::random_table(&mut random),
            kind => {
                let mut network = Network::random(&mut random);
                // a network, but for a need that cannot be met, or a weight that none may have
                match kind {
                    2 => network.raise_need(&mut random),
                    3 => network.spoil_weight(&mut random),
                    _ => {}
                }
                let mut rows = network.rows();
                if kind >= 13 {
                    made::damage_rows(&mut rows, &mut random);
                }
                let mut table = made::table(&network, &rows);
                if (9..14).contains(&kind) {
                    made::damage_table(&mut table, &mut random);
                }
                if kind == 2 || kind == 3 {
                    assert_eq!(share_sheet::degree(&table, 0), Err(Refusal::NoNetwork));
                }
                table
            }
        };
        for _ in 0..random.of(&[0, 0, 1, 9]) {
            table.push(random.word() as u16 >> random.below(16));
        }
        call_all(&table, &mut random, &mut tallies);
    }
    tallies.show_table_calls();
}

/// How many networks were read, written and read again, and how many of each kind.
#[derive(Debug, Default)]
struct RoundTrips {
    /// Their files have no parallel circuits; they have some, and are not given back.
    without_parallels: usize,
    with_parallels: usize,
    /// Their files have no weights; weights that are all 1, and are not given back; other weights.
    without_weights: usize,
    with_ones: usize,
    with_weights: usize,
    /// Their files are given back, and have weights.
    weights_given_back: usize,
    /// One bus; as many buses as may be; no line at all.
    one_bus: usize,
    most_buses: usize,
    no_line: usize,
    /// 23 lines at each bus; the largest file that there is.
    full: usize,
    largest: usize,
    /// Calls that were lent no byte, a byte too few, just enough, more, and as many as are enough
    /// for every file.
    no_byte: usize,
    a_byte_short: usize,
    just_enough: usize,
    more: usize,
    enough_for_all: usize,
}

impl RoundTrips {
    /// Counts a network; `written` is the same as it is written.
    fn count_network(&mut self, network: &Network, written: &Network) {
        let (n, m) = (written.needs.len(), written.records.len());
        self.without_parallels += usize::from(network.records.len() == m);
        self.with_parallels += usize::from(network.records.len() > m);
        match (&network.weights, &written.weights) {
            (None, _) => self.without_weights += 1,
            (_, None) => self.with_ones += 1,
            _ => {
                self.with_weights += 1;
                self.weights_given_back += usize::from(network.records.len() == m);
            }
        }
        self.one_bus += usize::from(n == 1);
        self.most_buses += usize::from(n == 512);
        self.no_line += usize::from(m == 0);
        self.full += usize::from(2 * m == 23 * n);
        self.largest += usize::from(m == made::MOST_RECORDS && written.weights.is_some());
    }

    /// Counts a call that lends so many bytes for a file of `bytes`.
    fn count_call(&mut self, length: usize, bytes: usize) {
        self.no_byte += usize::from(length == 0);
        self.a_byte_short += usize::from(length + 1 == bytes);
        self.just_enough += usize::from(length == bytes);
        self.more += usize::from(length > bytes);
        self.enough_for_all += usize::from(length == limits().file_bytes);
    }

    fn show(&self) {
        println!("{self:?}");
        assert_eq!(self.without_parallels + self.with_parallels, ROUND_TRIPS);
        assert!(self.without_parallels >= 50_000 && self.with_parallels >= 20_000, "{self:?}");
        assert!(self.without_weights >= 20_000 && self.with_ones >= 10_000, "{self:?}");
        assert!(self.with_weights >= 20_000 && self.weights_given_back >= 10_000, "{self:?}");
        assert!(self.one_bus >= 1_000 && self.most_buses >= 100, "{self:?}");
        assert!(self.no_line >= 1_000 && self.full >= 100 && self.largest > 0, "{self:?}");
        for calls in [self.no_byte, self.a_byte_short, self.just_enough, self.more] {
            assert!(calls >= ROUND_TRIPS, "{self:?}");
        }
        assert!(self.enough_for_all >= 1_000, "{self:?}");
    }
}

/// Reads a file that is sound into so many entries.
fn table_of(file: &[u8], entries: usize) -> (Counts, Vec<u16>) {
    let mut table = marks(entries);
    let counts = share_sheet::read(file, &mut table).expect("the file is sound");
    (counts, table)
}

/// Files are read, written and read again; tables built in memory are written and read. What is
/// written is the file with one record for each pair and without weights that are all 1, so that a
/// file that has neither parallel circuits nor such weights is given back.
#[test]
fn round_trips() {
    let mut random = Random::new(0x5EED_0707_11E5);
    let mut trips = RoundTrips::default();
    for _ in 0..ROUND_TRIPS {
        let network = Network::random(&mut random);
        let written = network.as_written();
        trips.count_network(&network, &written);
        let (file, wanted) = (network.file(), written.file());
        let (buses, lines) = (written.needs.len(), written.records.len());
        let entries = 3 * buses + 2 + 2 * lines;
        let bytes = 4 + buses + 4 * lines + written.weights.as_ref().map_or(0, |_| 2 + 2 * buses);
        let is_given_back = network.records.len() == lines && network.weights == written.weights;

        let (counts, table) = table_of(&file, entries);
        assert_eq!(counts, Counts { buses, lines });
        let mut lengths = vec![0, random.below(bytes), bytes - 1, bytes, bytes + 1];
        if random.one_in(50) {
            lengths.push(limits().file_bytes);
        }
        for length in lengths {
            let library = |lent: &mut [u8]| share_sheet::write(&table, lent);
            let copied = |lent: &mut [u8]| {
                lent.get_mut(..bytes).ok_or(16)?.copy_from_slice(&wanted);
                Ok(bytes)
            };
            let (answer, lent) = alike(&marks(length), 0xA5, library, copied);
            trips.count_call(length, bytes);
            if answer.is_ok() {
                assert_eq!(lent[..bytes] == file, is_given_back);
                assert_eq!(table_of(&lent[..bytes], entries), (counts, table.clone()));
            }
        }

        let mut built = made::table(&network, &network.rows());
        let behind = random.below(4);
        built.extend(marks::<u16>(behind));
        let mut lent = marks(bytes);
        assert_eq!(share_sheet::write(&built, &mut lent), Ok(bytes));
        assert_eq!(lent, wanted);
        built.truncate(entries);
        assert_eq!(table_of(&lent, entries), (counts, built));
    }
    trips.show();
}

/// How many lines went out, and how many in each way that counts.
#[derive(Debug, Default)]
struct Outages {
    /// The line has several circuits; it is the first line, and the last, of several.
    parallel: usize,
    first: usize,
    last: usize,
    /// The network without the line can be read, and its shares are compared.
    compared: usize,
    /// It cannot be, since the need of one end is above its degree then, or the needs of both.
    one_unmet: usize,
    both_unmet: usize,
    /// An end is left without lines.
    left_alone: usize,
    /// The network without the line has a smaller denominator.
    smaller_denominator: usize,
    /// Some bus is neither an end nor a neighbour of one; a neighbour of an end, which is none
    /// itself, has another share.
    far: usize,
    beside: usize,
}

impl Outages {
    fn show(&self) {
        println!("{self:?}");
        let ways = [
            self.parallel,
            self.first,
            self.last,
            self.compared,
            self.one_unmet,
            self.both_unmet,
            self.left_alone,
            self.smaller_denominator,
            self.far,
            self.beside,
        ];
        assert!(ways.iter().all(|&times| times >= 1_000), "{self:?}");
    }
}

/// Lines go out of networks. Their numbers are places among the different pairs of the file, which
/// are in order. Changes add up to zero, and are zero far from the line. If the file without the
/// line's records is accepted, its shares less those of the full network are the changes.
#[test]
fn outages() {
    let mut random = Random::new(0x5EED_0007_A6E5);
    let mut outages = Outages::default();
    for _ in 0..OUTAGES {
        let network = Network::random(&mut random);
        let rows = network.rows();
        let table = made::table(&network, &rows);
        let pairs = network.as_written().records;
        if pairs.is_empty() {
            continue;
        }
        let any = random.below(pairs.len());
        let line = random.of(&[0, any, any, pairs.len() - 1]);
        let (a, b) = pairs[line];

        let library = |changes: &mut [i64]| share_sheet::outage(&table, line, changes);
        let plain = |changes: &mut [i64]| plain::outage(&table, line, changes);
        let (answer, changes) = alike(&marks(rows.len()), -0xA5A5, library, plain);
        let over = answer.expect("the network has the line");
        assert_eq!(changes.iter().sum::<i64>(), 0);
        let is_end = |bus: u16| bus == a || bus == b;
        let ends = [&rows[a as usize], &rows[b as usize]];
        let is_beside = |bus: u16| ends.iter().any(|row| row.contains(&bus));
        for (bus, &change) in (0..).zip(&changes) {
            assert!(change == 0 || is_end(bus) || is_beside(bus), "bus {bus}");
        }

        let mut weakened = network;
        let records = weakened.records.len();
        weakened.records.retain(|&record| record != (a, b));
        let file = weakened.file();
        let mut left = vec![0; table.len()];
        match share_sheet::read(&file, &mut left) {
            Ok(_) => {
                let (mut with, mut without) = (vec![0; rows.len()], vec![0; rows.len()]);
                assert_eq!(share_sheet::shares(&table, &mut with), Ok(over));
                let smaller = share_sheet::shares(&left, &mut without).expect("it was read");
                for (bus, &change) in changes.iter().enumerate() {
                    let scaled = without[bus] * (over / smaller);
                    assert_eq!(change, scaled as i64 - with[bus] as i64, "bus {bus}");
                }
                outages.compared += 1;
                outages.smaller_denominator += usize::from(smaller < over);
            }
            Err(refusal) => {
                assert_eq!(refusal, Refusal::NeedAboveDegree);
                match unmet(&weakened).len() {
                    1 => outages.one_unmet += 1,
                    _ => outages.both_unmet += 1,
                }
            }
        }
        let several = pairs.len() > 1;
        let mut buses = 0..rows.len() as u16;
        let moved = |bus: u16| !is_end(bus) && changes[bus as usize] != 0;
        outages.parallel += usize::from(records - weakened.records.len() > 1);
        outages.first += usize::from(several && line == 0);
        outages.last += usize::from(several && line == pairs.len() - 1);
        outages.left_alone += usize::from(ends.iter().any(|row| row.len() == 1));
        outages.beside += usize::from(buses.clone().any(moved));
        outages.far += usize::from(buses.any(|bus| !is_end(bus) && !is_beside(bus)));
    }
    outages.show();
}

/// 513 buses are one too many for a table, whatever else it has.
#[test]
fn a_table_of_one_bus_too_many() {
    let mut random = Random::new(513);
    let mut tallies = Tallies::default();
    for (n, holds) in [(512, true), (513, false)] {
        let pairs = (0..n / 2).map(|pair| (2 * pair, 2 * pair + 1)).collect();
        for records in [vec![], pairs] {
            let network = Network { needs: vec![1; n.into()], records, weights: None };
            let table = made::table(&network, &network.rows());
            assert_eq!(share_sheet::degree(&table, 0).is_ok(), holds);
            call_all(&table, &mut random, &mut tallies);
        }
    }
}

#[test]
fn fractions() {
    let mut random = Random::new(0x5EED_F4AC_7105);
    let mut tally = Tally::default();
    let mut number = |factor: u64| match random.below(12) {
        0 => 0,
        1 => u64::MAX,
        2 => 1 << random.below(64),
        3 => 5_354_228_880,
        4..=7 => factor.wrapping_mul(random.word() >> (20 + random.below(44))),
        _ => random.word() >> random.below(64),
    };
    for _ in 0..FRACTIONS {
        let factor = (number(1) >> 32).max(1);
        let (numerator, denominator) = (number(factor), number(factor));
        let wanted = plain::cancel(numerator, denominator);
        let given = share_sheet::cancel(numerator, denominator).map_err(Refusal::number);
        let given = given.map(|Fraction { numerator, denominator }| (numerator, denominator));
        assert_eq!(given, wanted, "{numerator}/{denominator}");
        tally.count(&wanted);
    }
    tally.shows("cancel", &[9]);
}
