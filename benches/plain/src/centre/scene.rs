//! The locks and the trains of a centre as lines.

use super::{Centre, Lock, Train};
use crate::text::{print_next, print_word};
use crate::track::Leg;

const LEGS_A_LINE: usize = 64;

impl Centre {
    /// The version, how many trains there are, and how many sections are locked.
    pub fn print_state(&self, out: &mut Vec<u8>) {
        out.extend_from_slice(b"state");
        for count in [self.entries, self.trains.len(), self.locks.iter().flatten().count()] {
            print_next(out, count as i64);
        }
        out.push(b'\n');
    }

    pub fn print_scene(&self, out: &mut Vec<u8>) {
        out.extend_from_slice(b"scene");
        print_next(out, self.entries as i64);
        out.push(b'\n');
        for (section, lock) in self.locks.iter().enumerate() {
            if let Some(lock) = lock {
                self.print_lock(out, section as u32, lock);
            }
        }
        for train in &self.trains {
            print_report(out, train);
            self.print_line(out, train);
            print_places(out, b"stands", train, &[train.rear, train.front]);
            print_places(out, b"holds", train, &[train.from, train.to]);
            self.print_prospect(out, train);
        }
        out.extend_from_slice(b"done\n");
    }

    fn print_lock(&self, out: &mut Vec<u8>, section: u32, lock: &Lock) {
        out.extend_from_slice(b"locked");
        self.print_leg(out, Leg { section, rising: lock.rising });
        print_word(out, self.track.routes[lock.route].name.as_bytes());
        match lock.before {
            Some(leg) => self.print_leg(out, leg),
            None => print_word(out, b"-"),
        }
        out.push(b'\n');
    }

    /// The legs of a train's line, some at a time.
    fn print_line(&self, out: &mut Vec<u8>, train: &Train) {
        for (number, legs) in train.line.chunks(LEGS_A_LINE).enumerate() {
            if number == 0 {
                begin(out, b"line", train);
                print_next(out, i64::from(train.origin));
            } else {
                begin(out, b"along", train);
            }
            for leg in legs {
                self.print_leg(out, *leg);
            }
            out.push(b'\n');
        }
    }

    /// What the train would be told if it asked now.
    fn print_prospect(&self, out: &mut Vec<u8>, train: &Train) {
        let found = self.search(train);
        begin(out, b"next", train);
        match self.end_of(train, found.reach) {
            Some(end) => print_next(out, from_group(train, end)),
            None => print_word(out, b"-"),
        }
        print_next(out, from_group(train, found.reach));
        self.print_obstacle(out, found.obstacle);
        out.push(b'\n');
    }
}

fn begin(out: &mut Vec<u8>, word: &[u8], train: &Train) {
    out.extend_from_slice(word);
    print_next(out, i64::from(train.report.train));
}

fn from_group(train: &Train, place: u32) -> i64 {
    i64::from(place) - i64::from(train.origin)
}

fn print_places(out: &mut Vec<u8>, word: &[u8], train: &Train, places: &[u32]) {
    begin(out, word, train);
    for place in places {
        print_next(out, from_group(train, *place));
    }
    out.push(b'\n');
}

fn print_report(out: &mut Vec<u8>, train: &Train) {
    let report = &train.report;
    begin(out, b"train", train);
    print_word(out, format!("{}/{}", report.group.0, report.group.1).as_bytes());
    print_word(out, if report.nominal { b"nominal" } else { b"reverse" });
    for number in [report.distance, report.over, report.under, report.length, report.time] {
        print_next(out, i64::from(number));
    }
    out.push(b'\n');
}
