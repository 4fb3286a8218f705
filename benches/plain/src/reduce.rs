//! The steps that lose least, and the table of prices that shows it.

/// Runs (start, value) and the end, in metres.
pub struct Runs {
    pub rows: Vec<(u32, i32)>,
    pub end: u32,
}

#[derive(Clone, Copy, PartialEq)]
pub enum Kind {
    Speed,
    Grade,
}

impl Kind {
    pub fn name(self) -> &'static [u8] {
        match self {
            Kind::Speed => b"speed",
            Kind::Grade => b"grade",
        }
    }

    fn floor(self, value: i32) -> i32 {
        match self {
            Kind::Speed => value - value % 5,
            Kind::Grade => value,
        }
    }
}

/// Where an end beyond this lies, a message counts in tens of metres.
pub const FARTHEST_IN_METRES: u32 = 32_000;

pub fn unit_of(end: u32) -> u32 {
    if end <= FARTHEST_IN_METRES { 1 } else { 10 }
}

/// The places at which a profile may be cut, with what the track has between two of them: the least value, and the
/// sum over the metres before each.
pub struct Breaks {
    kind: Kind,
    pub places: Vec<u32>,
    least: Vec<i32>,
    before: Vec<i32>,
}

impl Breaks {
    pub fn of(kind: Kind, runs: &Runs) -> Breaks {
        let unit = unit_of(runs.end);
        let mut places: Vec<u32> = Vec::with_capacity(runs.rows.len() * if unit == 1 { 1 } else { 2 } + 1);
        let mut add = |place: u32| {
            if places.last().map_or(true, |last| *last < place) {
                places.push(place);
            }
        };
        for (start, _) in &runs.rows {
            add(start - start % unit);
            add(start.div_ceil(unit) * unit);
        }
        add(runs.end);
        let (mut least, mut before) = (Vec::with_capacity(places.len()), Vec::with_capacity(places.len()));
        let (mut run, mut sum) = (0, 0);
        before.push(0);
        for pair in places.windows(2) {
            let (mut from, to) = (pair[0], pair[1]);
            let mut low = i32::MAX;
            while from < to {
                let ends = runs.rows.get(run + 1).map_or(runs.end, |next| next.0);
                let value = runs.rows[run].1;
                low = low.min(value);
                let stop = ends.min(to);
                sum += value * (stop - from) as i32;
                from = stop;
                if ends <= to {
                    run += 1;
                }
            }
            least.push(low);
            before.push(sum);
        }
        Breaks { kind, places, least, before }
    }

    /// Fills in what one step costs from each earlier break up to this one.
    #[inline]
    fn costs_to(&self, to: usize, costs: &mut [i32]) {
        let (place, sum) = (self.places[to] as i32, self.before[to]);
        let mut low = i32::MAX;
        let from = costs.iter_mut().zip(&self.least).zip(&self.before).zip(&self.places).take(to).rev();
        for (((cost, least), before), start) in from {
            low = low.min(*least);
            *cost = sum - before - self.kind.floor(low) * (place - *start as i32);
        }
    }

    fn least_between(&self, from: usize, to: usize) -> i32 {
        *self.least[from..to].iter().min().unwrap()
    }
}

/// Prices by row and break; the price at break 0 is 0.
pub struct Table {
    pub rows: Vec<Vec<i32>>,
}

/// The least of these sums.
#[inline]
fn least_sum(prices: &[i32], costs: &[i32]) -> i32 {
    prices.iter().zip(costs).map(|(price, cost)| price + cost).fold(i32::MAX, i32::min)
}

pub fn table_of(breaks: &Breaks, limit: usize) -> Table {
    let last = breaks.places.len() - 1;
    let count = limit.min(last);
    let mut rows = vec![vec![0i32; last + 1]; count];
    let mut costs = vec![0i32; last];
    for to in 1..=last {
        breaks.costs_to(to, &mut costs);
        rows[0][to] = costs[0];
        for row in 1..count {
            rows[row][to] = least_sum(&rows[row - 1][..to], &costs[..to]);
        }
    }
    Table { rows }
}

/// The chosen profile: as few steps as a best one can have, and of those the one with the first starts from behind.
pub fn profile_of(breaks: &Breaks, table: &Table) -> Vec<(u32, i32)> {
    let mut to = breaks.places.len() - 1;
    let loss = table.rows[table.rows.len() - 1][to];
    let mut row = table.rows.iter().position(|prices| prices[to] == loss).unwrap();
    let mut costs = vec![0i32; to];
    let mut steps = Vec::with_capacity(row + 1);
    while row > 0 {
        breaks.costs_to(to, &mut costs);
        let want = table.rows[row][to];
        let from = (0..to).find(|from| table.rows[row - 1][*from] + costs[*from] == want).unwrap();
        steps.push((breaks.places[from], breaks.kind.floor(breaks.least_between(from, to))));
        to = from;
        row -= 1;
    }
    steps.push((0, breaks.kind.floor(breaks.least_between(0, to))));
    steps.reverse();
    steps
}

pub struct Reduced {
    pub steps: Vec<(u32, i32)>,
    pub table: Table,
    pub loss: i32,
}

pub fn reduce(kind: Kind, runs: &Runs, limit: usize) -> Reduced {
    let breaks = Breaks::of(kind, runs);
    let table = table_of(&breaks, limit);
    let steps = profile_of(&breaks, &table);
    let loss = *table.rows[table.rows.len() - 1].last().unwrap();
    Reduced { steps, table, loss }
}

/// Whether no price of the table is above what the row before it and the costs allow.
pub fn is_sound(breaks: &Breaks, rows: &[Vec<i32>]) -> bool {
    let last = breaks.places.len() - 1;
    let mut costs = vec![0i32; last];
    (1..=last).all(|to| {
        breaks.costs_to(to, &mut costs);
        rows[0][to] <= costs[0]
            && (1..rows.len()).all(|row| rows[row][to] <= least_sum(&rows[row - 1][..to], &costs[..to]))
    })
}
