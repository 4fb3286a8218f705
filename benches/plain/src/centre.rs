//! A centre on a track.

mod scene;

use std::collections::HashMap;
use std::str;

use crate::reduce::{FARTHEST_IN_METRES, Kind, Reduced, Runs, reduce, unit_of};
use crate::text::{Bits, is_name, number_to, print_certificate, print_hex, print_next, print_word, put_profile, words};
use crate::track::{Leg, Track};

const MOST_TRAINS: usize = 1_024;
const MOST_ENTRIES: usize = 100_000;
/// From so many runs on, the two reductions of a grant are worth a thread.
const RUNS_WORTH_A_THREAD: usize = 400;

#[derive(Clone, Copy)]
struct Lock {
    rising: bool,
    route: usize,
    before: Option<Leg>,
}

#[derive(Clone, Copy)]
struct Report {
    train: u32,
    group: (u32, u32),
    nominal: bool,
    distance: u32,
    over: u32,
    under: u32,
    length: u32,
    time: u32,
}

/// A train: places are metres from the start of its line.
struct Train {
    report: Report,
    line: Vec<Leg>,
    origin: u32,
    rear: u32,
    front: u32,
    from: u32,
    to: u32,
}

#[derive(Clone, Copy)]
enum Obstacle {
    NoLink(Leg),
    NotLocked(u32),
    Own,
    Occupied(u32),
    Held(u32),
    Limit,
}

enum Refusal {
    Crowded,
    UnknownGroup,
    Offline,
    Unplaced,
    TooFar,
    Clash(u32),
    LinkTaken(Leg),
    NotLocked(u32),
    Busy(u32, u32),
    UnknownTrain(u32),
    YieldRange(u32),
    UnknownName(Vec<u8>),
    Full,
}

pub struct Centre {
    track: Track,
    locks: Vec<Option<Lock>>,
    /// The leg that is locked behind a leg.
    next: Vec<Option<Leg>>,
    /// In order of arrival.
    trains: Vec<Train>,
    places: HashMap<u32, usize>,
    /// Of each section, the trains whose lines have it.
    on: Vec<Vec<u32>>,
    entries: usize,
}

/// Where a train may run up to, and along which legs.
struct Search {
    way: Vec<Leg>,
    start: u32,
    reach: u32,
    obstacle: Obstacle,
}

fn slot(leg: Leg) -> usize {
    2 * leg.section as usize + usize::from(leg.rising)
}

impl Centre {
    pub fn new(track: Track) -> Centre {
        let sections = track.sections.len();
        Centre {
            track,
            locks: vec![None; sections],
            next: vec![None; 2 * sections],
            trains: Vec::new(),
            places: HashMap::new(),
            on: vec![Vec::new(); sections],
            entries: 0,
        }
    }

    /// Answers a line; tells whether it was understood.
    pub fn answer(&mut self, line: &[u8], out: &mut Vec<u8>) -> bool {
        let all: Vec<&[u8]> = words(line).collect();
        let done = match all[..] {
            [b"report", train, group, way, distance, over, under, length, time] => {
                let Some(report) = report_of(train, group, way, [distance, over, under, length, time]) else { return false };
                self.full().and_then(|_| self.report(report))
            }
            [b"lock" | b"free", name] if !is_name(name) => return false,
            [b"lock", name] => self.full().and_then(|_| self.lock(name)),
            [b"free", name] => self.full().and_then(|_| self.free(name)),
            [b"leave", train] => {
                let Some(train) = number_to(train, 1, 9_999_999) else { return false };
                self.full().and_then(|_| self.leave(train))
            }
            [b"yield", train, end] => {
                let (Some(train), Some(end)) = (number_to(train, 1, 9_999_999), number_to(end, 0, 100_000)) else { return false };
                self.full().and_then(|_| self.give_back(train, end))
            }
            [b"ask", train] => {
                let Some(train) = number_to(train, 1, 9_999_999) else { return false };
                match self.ask(train, out) {
                    Ok(()) => return true,
                    Err(refusal) => Err(refusal),
                }
            }
            [b"state"] => {
                self.print_state(out);
                return true;
            }
            [b"scene"] => {
                self.print_scene(out);
                return true;
            }
            _ => return false,
        };
        match done {
            Ok(()) => {
                self.entries += 1;
                out.extend_from_slice(b"ok");
                print_next(out, self.entries as i64);
            }
            Err(refusal) => {
                out.extend_from_slice(b"refused");
                self.print_refusal(out, &refusal);
            }
        }
        out.push(b'\n');
        true
    }

    /// How many entries there are.
    pub fn version(&self) -> usize {
        self.entries
    }

    fn full(&self) -> Result<(), Refusal> {
        if self.entries < MOST_ENTRIES { Ok(()) } else { Err(Refusal::Full) }
    }

    fn train(&self, number: u32) -> Result<usize, Refusal> {
        self.places.get(&number).copied().ok_or(Refusal::UnknownTrain(number))
    }

    // ---- locks

    fn lock(&mut self, name: &[u8]) -> Result<(), Refusal> {
        let unknown = || Refusal::UnknownName(name.to_vec());
        let number = *str::from_utf8(name).ok().and_then(|name| self.track.route_names.get(name)).ok_or_else(unknown)?;
        let route = &self.track.routes[number];
        if let Some(leg) = route.legs.iter().find(|leg| self.locks[leg.section as usize].is_some()) {
            return Err(Refusal::Clash(leg.section));
        }
        let before = route.after.into_iter().chain(route.legs[..route.legs.len() - 1].iter().copied());
        if let Some(leg) = before.clone().find(|leg| self.next[slot(*leg)].is_some()) {
            return Err(Refusal::LinkTaken(leg));
        }
        let mut before = route.after;
        for leg in &route.legs {
            self.locks[leg.section as usize] = Some(Lock { rising: leg.rising, route: number, before });
            if let Some(before) = before {
                self.next[slot(before)] = Some(*leg);
            }
            before = Some(*leg);
        }
        Ok(())
    }

    fn free(&mut self, name: &[u8]) -> Result<(), Refusal> {
        let unknown = || Refusal::UnknownName(name.to_vec());
        let section = *str::from_utf8(name).ok().and_then(|name| self.track.section_names.get(name)).ok_or_else(unknown)?;
        let lock = self.locks[section as usize].ok_or(Refusal::NotLocked(section))?;
        let busy = |train: &&Train| {
            let (Some(extent), Some(held)) = (self.metres_on(train, train.rear, train.front, section), self.metres_on(train, train.from, train.to, section)) else {
                return false;
            };
            extent.0 < extent.1 || held.0 < held.1
        };
        if let Some(train) = self.trains.iter().find(busy) {
            return Err(Refusal::Busy(section, train.report.train));
        }
        self.locks[section as usize] = None;
        if let Some(before) = lock.before {
            self.next[slot(before)] = None;
        }
        Ok(())
    }

    // ---- trains

    fn leave(&mut self, number: u32) -> Result<(), Refusal> {
        let at = self.train(number)?;
        let train = self.trains.remove(at);
        self.clear(&train.line, number);
        self.places.remove(&number);
        for place in self.places.values_mut().filter(|place| **place > at) {
            *place -= 1;
        }
        Ok(())
    }

    fn give_back(&mut self, number: u32, distance: u32) -> Result<(), Refusal> {
        let at = self.train(number)?;
        let train = &self.trains[at];
        let to = train.origin + distance;
        if to >= train.to || to < train.front || to < train.from {
            return Err(Refusal::YieldRange(number));
        }
        let kept = self.kept(&train.report, &train.line, train.front.max(to));
        let train = &mut self.trains[at];
        let dropped = train.line.split_off(kept);
        (train.from, train.to) = if train.from < to { (train.from, to) } else { (train.front, train.front) };
        self.clear(&dropped, number);
        Ok(())
    }

    fn clear(&mut self, legs: &[Leg], number: u32) {
        for leg in legs {
            self.on[leg.section as usize].retain(|train| *train != number);
        }
    }

    /// How many legs of the line are kept for the group's leg and all up to a place.
    fn kept(&self, report: &Report, line: &[Leg], place: u32) -> usize {
        let told = self.leg_told(report);
        let through = line.iter().position(|leg| *leg == told).unwrap_or(line.len()) + 1;
        let (mut begun, mut at) = (0, 0);
        while begun < line.len() && at < place {
            at += self.track.metres(line[begun]);
            begun += 1;
        }
        through.max(begun).min(line.len())
    }

    fn leg_told(&self, report: &Report) -> Leg {
        let group = &self.track.groups[&report.group];
        Leg { section: group.section, rising: group.rising == report.nominal }
    }

    /// The place of the report's group on the line.
    fn origin_on(&self, line: &[Leg], report: &Report) -> u32 {
        let (group, told) = (&self.track.groups[&report.group], self.leg_told(report));
        let before: u32 = line.iter().take_while(|leg| **leg != told).map(|leg| self.track.metres(*leg)).sum();
        before + if told.rising { group.offset } else { self.track.metres(told) - group.offset }
    }

    fn longer_ahead(&self, line: &mut Vec<Leg>) -> bool {
        match self.next[slot(line[line.len() - 1])] {
            Some(leg) if line.iter().all(|other| other.section != leg.section) => {
                line.push(leg);
                true
            }
            _ => false,
        }
    }

    fn report(&mut self, report: Report) -> Result<(), Refusal> {
        let known = self.places.get(&report.train).copied();
        if known.is_none() && self.trains.len() >= MOST_TRAINS {
            return Err(Refusal::Crowded);
        }
        if !self.track.groups.contains_key(&report.group) {
            return Err(Refusal::UnknownGroup);
        }
        let told = self.leg_told(&report);
        let mut line = known.map_or_else(|| vec![told], |at| self.trains[at].line.clone());
        while !line.contains(&told) {
            if !self.longer_ahead(&mut line) {
                return Err(Refusal::Offline);
            }
        }
        let old_origin = self.origin_on(&line, &report);
        self.drop_behind(&mut line, &report, old_origin, told);
        let mut origin = self.origin_on(&line, &report);
        let mut length: u32 = line.iter().map(|leg| self.track.metres(*leg)).sum();
        while length < origin + report.distance + report.under {
            if !self.longer_ahead(&mut line) {
                return Err(Refusal::Unplaced);
            }
            length += self.track.metres(line[line.len() - 1]);
        }
        while origin + report.distance < report.over + report.length {
            let first = line[0];
            let before = self.locks[first.section as usize].filter(|lock| lock.rising == first.rising).and_then(|lock| lock.before);
            match before {
                Some(leg) if line.iter().all(|other| other.section != leg.section) => {
                    origin += self.track.metres(leg);
                    line.insert(0, leg);
                }
                _ => return Err(Refusal::Unplaced),
            }
        }
        if report.distance + report.under > self.track.farthest {
            return Err(Refusal::TooFar);
        }
        let rear = origin + report.distance - (report.over + report.length);
        let front = origin + report.distance + report.under;
        let (mut from, mut to) = (front, front);
        if let Some(train) = known.map(|at| &self.trains[at]).filter(|train| train.from < train.to) {
            let held = ((train.from + origin).saturating_sub(old_origin).max(rear), (train.to + origin).saturating_sub(old_origin));
            if held.0 < held.1 {
                (from, to) = held;
            }
        }
        line.truncate(self.kept(&report, &line, front.max(to)));
        self.set(known, Train { report, line, origin, rear, front, from, to });
        Ok(())
    }

    /// Drops the legs behind both the group's and the one with the rear.
    fn drop_behind(&self, line: &mut Vec<Leg>, report: &Report, origin: u32, told: Leg) {
        let rear = (origin + report.distance).saturating_sub(report.over + report.length);
        let (mut behind, mut at) = (0, 0);
        while behind < line.len() && line[behind] != told && at + self.track.metres(line[behind]) <= rear {
            at += self.track.metres(line[behind]);
            behind += 1;
        }
        line.drain(..behind);
    }

    fn set(&mut self, known: Option<usize>, train: Train) {
        let number = train.report.train;
        match known {
            Some(at) => {
                let old = std::mem::replace(&mut self.trains[at], train);
                if old.line != self.trains[at].line {
                    self.clear(&old.line, number);
                    for leg in &self.trains[at].line {
                        self.on[leg.section as usize].push(number);
                    }
                }
            }
            None => {
                for leg in &train.line {
                    self.on[leg.section as usize].push(number);
                }
                self.places.insert(number, self.trains.len());
                self.trains.push(train);
            }
        }
    }

    // ---- searches

    /// The offsets on a section of the places of a train's line from one to another.
    fn metres_on(&self, train: &Train, from: u32, to: u32, section: u32) -> Option<(u32, u32)> {
        let mut at = 0;
        for leg in &train.line {
            let length = self.track.metres(*leg);
            if leg.section == section {
                let (from, to) = (from.clamp(at, at + length) - at, to.clamp(at, at + length) - at);
                return Some(if leg.rising { (from, to) } else { (length - to, length - from) });
            }
            at += length;
        }
        None
    }

    /// The first metre of a leg, from one on, that another train stands on or holds.
    fn met_on(&self, number: u32, leg: Leg, from: u32) -> Option<(u32, Obstacle)> {
        let length = self.track.metres(leg);
        let mut first: Option<(u32, u32, usize, Obstacle)> = None;
        for other in self.on[leg.section as usize].iter().filter(|other| **other != number) {
            let at = self.places[other];
            let train = &self.trains[at];
            let parts = [(train.rear, train.front, 0, Obstacle::Occupied(*other)), (train.from, train.to, 1, Obstacle::Held(*other))];
            for (rear, front, rank, obstacle) in parts {
                let Some((low, high)) = self.metres_on(train, rear, front, leg.section) else { continue };
                let (low, high) = if leg.rising { (low, high) } else { (length - high, length - low) };
                let met = low.max(from);
                if met < high && first.as_ref().map_or(true, |best| (met, rank, at) < (best.0, best.1, best.2)) {
                    first = Some((met, rank, at, obstacle));
                }
            }
        }
        first.map(|(met, _, _, obstacle)| (met, obstacle))
    }

    fn is_locked(&self, before: Option<Leg>, leg: Leg) -> bool {
        self.locks[leg.section as usize].is_some_and(|lock| lock.rising == leg.rising && (before.is_none() || lock.before == before))
    }

    fn search(&self, train: &Train) -> Search {
        let start = train.from.min(train.front);
        let limit = train.origin + self.track.farthest;
        let mut way = train.line.clone();
        let (mut at, mut index) = (0, 0);
        let (reach, obstacle) = loop {
            if index == way.len() {
                if !self.longer_ahead(&mut way) {
                    let last = way[way.len() - 1];
                    break (at, if self.next[slot(last)].is_some() { Obstacle::Own } else { Obstacle::NoLink(last) });
                }
            }
            let leg = way[index];
            let ends = at + self.track.metres(leg);
            if ends > start {
                let from = start.max(at);
                let before = if index == 0 { None } else { Some(way[index - 1]) };
                if !self.is_locked(before, leg) {
                    break (from, Obstacle::NotLocked(leg.section));
                }
                let met = self.met_on(train.report.train, leg, from - at).map(|(met, obstacle)| (at + met, obstacle));
                match met {
                    Some(met) if met.0 <= limit => break met,
                    _ if (from..ends).contains(&limit) => break (limit, Obstacle::Limit),
                    _ => {}
                }
            }
            at = ends;
            index += 1;
        };
        Search { way, start, reach, obstacle }
    }

    fn end_of(&self, train: &Train, reach: u32) -> Option<u32> {
        let distance = reach.checked_sub(train.origin)?;
        let distance = if distance > FARTHEST_IN_METRES { distance - distance % 10 } else { distance };
        let end = train.origin + distance;
        (distance >= 1 && end > train.front && end >= train.to).then_some(end)
    }

    /// The track's speeds or gradients from a train's group up to an end.
    fn levels(&self, way: &[Leg], origin: u32, end: u32, kind: Kind) -> Runs {
        let mut rows: Vec<(u32, i32)> = Vec::new();
        let mut at = 0;
        for leg in way {
            let section = &self.track.sections[leg.section as usize];
            let length = section.length;
            let runs = if kind == Kind::Speed { &section.speeds } else { &section.grades };
            let mut add = |from: u32, to: u32, value: i32| {
                let (from, to) = ((at + from).max(origin), (at + to).min(end));
                if from < to && rows.last().map_or(true, |last| last.1 != value) {
                    rows.push((from - origin, value));
                }
            };
            let ends = |index: usize| runs.get(index + 1).map_or(length, |next| next.0);
            if leg.rising {
                (0..runs.len()).for_each(|index| add(runs[index].0, ends(index), runs[index].1));
            } else {
                let turned = |value: i32| if kind == Kind::Speed { value } else { -value };
                (0..runs.len()).rev().for_each(|index| add(length - ends(index), length - runs[index].0, turned(runs[index].1)));
            }
            at += length;
            if at >= end {
                break;
            }
        }
        Runs { rows, end: end - origin }
    }

    fn ask(&mut self, number: u32, out: &mut Vec<u8>) -> Result<(), Refusal> {
        let at = self.train(number)?;
        let train = &self.trains[at];
        let found = self.search(train);
        let from_group = |place: u32| i64::from(place) - i64::from(train.origin);
        let Some(end) = self.end_of(train, found.reach) else {
            out.extend_from_slice(b"blocked");
            print_next(out, i64::from(number));
            print_next(out, self.entries as i64);
            print_next(out, from_group(found.reach));
            self.print_obstacle(out, found.obstacle);
            out.push(b'\n');
            return Ok(());
        };
        self.full()?;
        let speeds = self.levels(&found.way, train.origin, end, Kind::Speed);
        let grades = self.levels(&found.way, train.origin, end, Kind::Grade);
        let (fast, steep) = self.reductions(&speeds, &grades);
        out.extend_from_slice(b"granted");
        print_next(out, i64::from(number));
        print_next(out, self.entries as i64 + 1);
        print_next(out, from_group(found.start));
        print_next(out, from_group(end));
        self.print_obstacle(out, found.obstacle);
        out.extend_from_slice(b"\nmessage ");
        print_hex(out, &message(&train.report, speeds.end, &fast.steps, &steep.steps));
        out.push(b'\n');
        print_certificate(out, Kind::Speed, self.track.speed_steps, &speeds, &fast);
        print_certificate(out, Kind::Grade, self.track.grade_steps, &grades, &steep);
        out.extend_from_slice(b"done\n");
        self.grant(at, found, end);
        Ok(())
    }

    fn reductions(&self, speeds: &Runs, grades: &Runs) -> (Reduced, Reduced) {
        let (speed_steps, grade_steps) = (self.track.speed_steps, self.track.grade_steps);
        if speeds.rows.len() < RUNS_WORTH_A_THREAD || grades.rows.len() < RUNS_WORTH_A_THREAD {
            return (reduce(Kind::Speed, speeds, speed_steps), reduce(Kind::Grade, grades, grade_steps));
        }
        std::thread::scope(|scope| {
            let other = scope.spawn(|| reduce(Kind::Grade, grades, grade_steps));
            (reduce(Kind::Speed, speeds, speed_steps), other.join().unwrap())
        })
    }

    fn grant(&mut self, at: usize, found: Search, end: u32) {
        let mut line = found.way;
        let (mut legs, mut begun) = (0, 0);
        while legs < line.len() && begun < end {
            begun += self.track.metres(line[legs]);
            legs += 1;
        }
        let train = &mut self.trains[at];
        line.truncate(legs.max(train.line.len()));
        for leg in &line[train.line.len()..] {
            self.on[leg.section as usize].push(train.report.train);
        }
        (train.line, train.from, train.to) = (line, found.start, end);
        self.entries += 1;
    }

    // ---- texts

    fn section_name(&self, section: u32) -> &[u8] {
        self.track.sections[section as usize].name.as_bytes()
    }

    fn print_leg(&self, out: &mut Vec<u8>, leg: Leg) {
        self.track.print_leg(out, leg);
    }

    fn print_obstacle(&self, out: &mut Vec<u8>, obstacle: Obstacle) {
        match obstacle {
            Obstacle::NoLink(leg) => {
                print_word(out, b"NoLink");
                self.print_leg(out, leg);
            }
            Obstacle::NotLocked(section) => {
                print_word(out, b"NotLocked");
                print_word(out, self.section_name(section));
            }
            Obstacle::Own => print_word(out, b"Own"),
            Obstacle::Occupied(train) => {
                print_word(out, b"Occupied");
                print_next(out, i64::from(train));
            }
            Obstacle::Held(train) => {
                print_word(out, b"Held");
                print_next(out, i64::from(train));
            }
            Obstacle::Limit => print_word(out, b"Limit"),
        }
    }

    fn print_refusal(&self, out: &mut Vec<u8>, refusal: &Refusal) {
        let mut name = |name: &[u8]| print_word(out, name);
        match refusal {
            Refusal::Crowded => name(b"Crowded"),
            Refusal::UnknownGroup => name(b"UnknownGroup"),
            Refusal::Offline => name(b"Offline"),
            Refusal::Unplaced => name(b"Unplaced"),
            Refusal::TooFar => name(b"TooFar"),
            Refusal::Full => name(b"Full"),
            Refusal::UnknownName(text) => {
                name(b"UnknownName");
                name(text);
            }
            Refusal::Clash(section) => {
                name(b"Clash");
                name(self.section_name(*section));
            }
            Refusal::LinkTaken(leg) => {
                name(b"LinkTaken");
                self.print_leg(out, *leg);
            }
            Refusal::NotLocked(section) => {
                name(b"NotLocked");
                name(self.section_name(*section));
            }
            Refusal::Busy(section, train) => {
                name(b"Busy");
                name(self.section_name(*section));
                print_next(out, i64::from(*train));
            }
            Refusal::UnknownTrain(train) => {
                name(b"UnknownTrain");
                print_next(out, i64::from(*train));
            }
            Refusal::YieldRange(train) => {
                name(b"YieldRange");
                print_next(out, i64::from(*train));
            }
        }
    }
}

fn report_of(train: &[u8], group: &[u8], way: &[u8], rest: [&[u8]; 5]) -> Option<Report> {
    let slash = group.iter().position(|byte| *byte == b'/')?;
    let nominal = match way {
        b"nominal" => true,
        b"reverse" => false,
        _ => return None,
    };
    Some(Report {
        train: number_to(train, 1, 9_999_999)?,
        group: (number_to(&group[..slash], 0, 1_023)?, number_to(&group[slash + 1..], 0, 16_382)?),
        nominal,
        distance: number_to(rest[0], 0, 100_000)?,
        over: number_to(rest[1], 0, 10_000)?,
        under: number_to(rest[2], 0, 10_000)?,
        length: number_to(rest[3], 1, 4_095)?,
        time: number_to(rest[4], 0, 4_294_967_294)?,
    })
}

fn message(report: &Report, end: u32, speeds: &[(u32, i32)], grades: &[(u32, i32)]) -> Vec<u8> {
    let bit_count = 75 + 66 + 54 + 24 * grades.len() + 58 + 28 * speeds.len();
    let mut bits = Bits::default();
    bits.put(8, 3);
    bits.put(10, bit_count.div_ceil(8) as u32);
    bits.put(32, report.time);
    bits.put(1, 0);
    bits.put(10, report.group.0);
    bits.put(14, report.group.1);
    let unit = unit_of(end);
    for (width, value) in [(8, 15), (2, u32::from(report.nominal)), (13, 66), (2, if unit == 1 { 1 } else { 2 }), (7, 0), (10, 1_023), (5, 0), (15, end / unit), (4, 0)] {
        bits.put(width, value);
    }
    put_profile(&mut bits, Kind::Grade, report.nominal, end, grades);
    put_profile(&mut bits, Kind::Speed, report.nominal, end, speeds);
    debug_assert_eq!(bits.count(), bit_count);
    bits.bytes()
}
