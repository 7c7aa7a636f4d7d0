//! How often each outcome occurred.

use crate::comparing::Outcome;

/// The reference tank's last depth, in centimetres.
const DEEPEST: u16 = 400;

#[derive(Default)]
pub struct Tally {
    checks: [u64; 10],
    refusals: [u64; 10],
    tanks: [u64; 9],
    rounds: [u64; 9],
    verdicts: [u64; 2],
    factors: [u64; 2],
    deciding_rows: [u64; 9],
    unsounded: [u64; 11],
    sounded: [u64; 9],
    /// At the bottom, between, and at the top of the table.
    depths: [u64; 3],
    unread_matrices: [u64; 13],
    read_matrices: [u64; 9],
    /// As the writer writes it, and otherwise.
    forms: [u64; 2],
    unwritten_matrices: [u64; 13],
    written_matrices: [u64; 9],
}

impl Tally {
    pub fn add_check(&mut self, outcome: Outcome) {
        self.checks[usize::from(outcome.err().unwrap_or(0))] += 1;
    }

    pub fn add_judgement(&mut self, outcome: Outcome, buffer: &[u8]) {
        match outcome {
            Err(refusal) => self.refusals[usize::from(refusal)] += 1,
            Ok(length) => self.add_record(&buffer[..length]),
        }
    }

    fn add_record(&mut self, record: &[u8]) {
        let n = (record.len() - 20) / 20;
        self.tanks[n] += 1;
        self.verdicts[usize::from(record[3])] += 1;
        self.rounds[usize::from(record[5])] += 1;
        self.factors[usize::from(record[15 + 20 * n])] += 1;
        self.deciding_rows[usize::from(record[16 + 20 * n])] += 1;
    }

    pub fn add_soundings(&mut self, outcome: Outcome, buffer: &[u8]) {
        match outcome {
            Err(refusal) => self.unsounded[usize::from(refusal)] += 1,
            Ok(length) => self.add_depths(&buffer[..length]),
        }
    }

    fn add_depths(&mut self, bytes: &[u8]) {
        self.sounded[bytes.len() / 2] += 1;
        for depth in ballast::depths(bytes) {
            let part = usize::from(depth > 0) + usize::from(depth >= DEEPEST);
            self.depths[part] += 1;
        }
    }

    pub fn add_read_matrix(&mut self, outcome: Outcome, list: &[i16], text: &[u8]) {
        match outcome {
            Err(refusal) => self.unread_matrices[usize::from(refusal)] += 1,
            Ok(n) => {
                self.read_matrices[n] += 1;
                let mut room = [0; ballast::MATRIX_ROOM];
                let length = ballast::write_matrix(n, &list[..n * n], &mut room);
                let length = length.expect("what was read is within the limits");
                self.forms[usize::from(room[..length] != *text)] += 1;
            }
        }
    }

    pub fn add_written_matrix(&mut self, outcome: Outcome, n: usize) {
        match outcome {
            Err(refusal) => self.unwritten_matrices[usize::from(refusal)] += 1,
            Ok(_) => self.written_matrices[n] += 1,
        }
    }

    pub fn print(&self) {
        self.print_cases();
        self.print_soundings();
        self.print_matrices();
    }

    fn print_cases(&self) {
        print_counts("check refused", &self.checks, 2..=7);
        print_counts("judge refused", &self.refusals, 1..=9);
        print_counts("judged, by tanks", &self.tanks, 1..=8);
        print_counts("  rounds used", &self.rounds, 0..=8);
        let [unmet, met] = self.verdicts;
        println!("  verdict         met: {met}  unmet: {unmet}");
        let [given, none] = self.factors;
        println!("  factor          given: {given}  none: {none}");
        print_counts("  deciding row", &self.deciding_rows, 1..=8);
    }

    fn print_soundings(&self) {
        print_counts("sounding refused", &self.unsounded, 1..=10);
        let sounded: u64 = self.sounded.iter().sum();
        println!("sounded           counts: {sounded}");
        print_counts("  by tanks", &self.sounded, 1..=8);
        let [bottom, between, top] = self.depths;
        println!("  depths          0: {bottom}  between: {between}  {DEEPEST}: {top}");
    }

    fn print_matrices(&self) {
        print_counts("reading refused", &self.unread_matrices, [1, 11, 12]);
        print_counts("matrices read", &self.read_matrices, 1..=8);
        let [written, other] = self.forms;
        println!("  text            as written: {written}  otherwise: {other}");
        print_counts("writing refused", &self.unwritten_matrices, [1, 4, 6]);
        print_counts("matrices written", &self.written_matrices, 1..=8);
    }
}

fn print_counts(title: &str, counts: &[u64], numbers: impl IntoIterator<Item = usize>) {
    print!("{title:<16}");
    for number in numbers {
        print!("  {number}: {}", counts[number]);
    }
    println!();
}
