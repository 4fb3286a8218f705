//! `steps` and `check`.

use crate::reduce::{Breaks, FARTHEST_IN_METRES, Kind, Runs, is_sound, reduce, unit_of};
use crate::text::{Bits, number, number_to, print_certificate, print_hex, print_next, print_word, put_profile, run, runs_of, words};

fn kind_of(word: &[u8]) -> Option<Kind> {
    match word {
        b"speed" => Some(Kind::Speed),
        b"grade" => Some(Kind::Grade),
        _ => None,
    }
}

/// The limit of steps and the track of a request.
fn request(line: &[u8]) -> Option<(Kind, usize, Runs)> {
    let mut words = words(line);
    let kind = kind_of(words.next()?)?;
    let limit = number_to(words.next()?, 1, 31)? as usize;
    let mut rows = Vec::with_capacity(line.len() / 6);
    for word in &mut words {
        if word == b"end" {
            let end = number_to(words.next()?, 1, 80_000)?;
            if words.next().is_some() || end > FARTHEST_IN_METRES && end % 10 != 0 {
                return None;
            }
            return Some((kind, limit, runs_of(rows, end)?));
        }
        rows.push(run(kind, word)?);
    }
    None
}

/// Answers a request for steps; tells whether it was understood.
pub fn answer(line: &[u8], out: &mut Vec<u8>) -> bool {
    let Some((kind, limit, runs)) = request(line) else { return false };
    let reduced = reduce(kind, &runs, limit);
    print_certificate(out, kind, limit, &runs, &reduced);
    let mut bits = Bits::default();
    put_profile(&mut bits, kind, true, runs.end, &reduced.steps);
    out.extend_from_slice(b"packet ");
    print_hex(out, &bits.bytes());
    out.extend_from_slice(b"\ndone\n");
    true
}

/// A certificate of which some lines were read.
pub struct Block {
    kind: Kind,
    limit: usize,
    runs: Runs,
    steps: Vec<(u32, i32)>,
    loss: u64,
    rows: Vec<Vec<i32>>,
}

#[derive(Default)]
pub struct Checker {
    block: Option<Block>,
}

impl Checker {
    /// Reads a line; tells whether all that is judged by it is well.
    pub fn read(&mut self, line: &[u8], out: &mut Vec<u8>) -> bool {
        let mut all = words(line);
        match all.next() {
            Some(b"speed" | b"grade") => {
                let is_well = self.judge(out);
                let Some((kind, limit, runs)) = request(line) else { return false };
                self.block = Some(Block { kind, limit, runs, steps: Vec::new(), loss: 0, rows: Vec::new() });
                is_well
            }
            Some(b"steps") if self.block.as_ref().is_some_and(|block| block.steps.is_empty()) => self.read_steps(all).is_some(),
            Some(b"prices") if self.block.as_ref().is_some_and(|block| !block.steps.is_empty()) => self.read_prices(line, all).is_some(),
            _ => self.judge(out),
        }
    }

    fn read_steps<'a>(&mut self, mut words: impl Iterator<Item = &'a [u8]>) -> Option<()> {
        let block = self.block.as_mut()?;
        for word in &mut words {
            if word == b"loss" {
                block.loss = number(words.next()?)?;
                return words.next().is_none().then_some(());
            }
            block.steps.push(run(block.kind, word)?);
        }
        None
    }

    fn read_prices<'a>(&mut self, line: &[u8], mut words: impl Iterator<Item = &'a [u8]>) -> Option<()> {
        let block = self.block.as_mut()?;
        if number(words.next()?)? != block.rows.len() as u64 + 1 {
            return None;
        }
        let mut row = Vec::with_capacity(block.rows.last().map_or(line.len() / 2, Vec::len));
        row.push(0);
        for word in words {
            row.push(number(word).filter(|price| *price < 1 << 30)? as i32);
        }
        block.rows.push(row);
        Some(())
    }

    /// Judges the block that is open.
    pub fn judge(&mut self, out: &mut Vec<u8>) -> bool {
        let Some(block) = self.block.take() else { return true };
        if !block.is_certified() {
            return false;
        }
        out.extend_from_slice(b"certified");
        print_word(out, block.kind.name());
        print_next(out, block.loss as i64);
        out.push(b'\n');
        true
    }
}

impl Block {
    fn is_certified(&self) -> bool {
        let breaks = Breaks::of(self.kind, &self.runs);
        let last = breaks.places.len() - 1;
        let is_shaped = self.rows.len() == self.limit.min(last)
            && self.rows.iter().all(|row| row.len() == last + 1)
            && (1..=self.limit).contains(&self.steps.len())
            && self.steps[0].0 == 0
            && self.steps.windows(2).all(|pair| pair[0].0 < pair[1].0)
            && self.steps[self.steps.len() - 1].0 < self.runs.end
            && self.steps.iter().all(|(start, value)| start % unit_of(self.runs.end) == 0 && (self.kind == Kind::Grade || value % 5 == 0));
        is_shaped
            && self.lost().is_some_and(|loss| loss == self.loss && loss == self.rows[self.rows.len() - 1][last] as u64)
            && is_sound(&breaks, &self.rows)
    }

    /// What the profile loses, if it is nowhere above the track.
    fn lost(&self) -> Option<u64> {
        let (mut loss, mut at, mut run, mut step) = (0, 0, 0, 0);
        while at < self.runs.end {
            let run_ends = self.runs.rows.get(run + 1).map_or(self.runs.end, |next| next.0);
            let step_ends = self.steps.get(step + 1).map_or(self.runs.end, |next| next.0);
            let price = self.runs.rows[run].1 - self.steps[step].1;
            if price < 0 {
                return None;
            }
            let to = run_ends.min(step_ends);
            loss += price as u64 * u64::from(to - at);
            at = to;
            run += usize::from(run_ends == to);
            step += usize::from(step_ends == to);
        }
        Some(loss)
    }
}
