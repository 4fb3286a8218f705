//! A track as lines.

use super::{Leg, Track};
use crate::text::{print_next, print_rows, print_word};

impl Track {
    pub fn print_leg(&self, out: &mut Vec<u8>, leg: Leg) {
        print_word(out, self.sections[leg.section as usize].name.as_bytes());
        out.push(if leg.rising { b'+' } else { b'-' });
    }

    pub fn print(&self, out: &mut Vec<u8>) {
        out.extend_from_slice(b"track");
        for number in [self.format as usize, self.speed_steps, self.grade_steps] {
            print_next(out, number as i64);
        }
        out.push(b'\n');
        self.print_sections(out);
        for (from, to) in &self.links {
            out.extend_from_slice(b"link");
            self.print_leg(out, *from);
            self.print_leg(out, *to);
            out.push(b'\n');
        }
        self.print_groups(out);
        self.print_routes(out);
        out.extend_from_slice(b"done\n");
    }

    fn print_sections(&self, out: &mut Vec<u8>) {
        for section in &self.sections {
            out.extend_from_slice(b"section");
            print_word(out, section.name.as_bytes());
            print_next(out, i64::from(section.length));
            for (word, rows) in [(&b"speeds"[..], &section.speeds), (b"grades", &section.grades)] {
                out.push(b'\n');
                out.extend_from_slice(word);
                print_word(out, section.name.as_bytes());
                print_rows(out, rows);
            }
            out.push(b'\n');
        }
    }

    fn print_groups(&self, out: &mut Vec<u8>) {
        for name in &self.group_names {
            let group = &self.groups[name];
            out.extend_from_slice(b"group");
            print_word(out, format!("{}/{}", name.0, name.1).as_bytes());
            self.print_leg(out, Leg { section: group.section, rising: group.rising });
            print_next(out, i64::from(group.offset));
            out.push(b'\n');
        }
    }

    fn print_routes(&self, out: &mut Vec<u8>) {
        for route in &self.routes {
            out.extend_from_slice(b"route");
            print_word(out, route.name.as_bytes());
            match route.after {
                Some(leg) => self.print_leg(out, leg),
                None => print_word(out, b"-"),
            }
            for leg in &route.legs {
                self.print_leg(out, *leg);
            }
            out.push(b'\n');
        }
    }
}
