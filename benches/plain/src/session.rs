//! `run` and `show`: a session with a centre, and what is written of it.

use crate::centre::Centre;
use crate::faults::print_fault;
use crate::text::{print_next, words};
use crate::track::Track;

const LONGEST_LINE: usize = 4_096;

#[derive(Clone, Copy, PartialEq, Eq)]
pub enum Written {
    /// The replies.
    Replies,
    /// The track, and the scene at the end.
    LastScene,
    /// The track, the scene before the first line, and each line with its reply and the scene behind it.
    EachScene,
}

pub struct Session {
    centre: Centre,
    written: Written,
    lines: i64,
}

impl Session {
    pub fn begin(track: Track, written: Written, out: &mut Vec<u8>) -> Session {
        if written != Written::Replies {
            track.print(out);
        }
        let centre = Centre::new(track);
        if written == Written::EachScene {
            centre.print_scene(out);
        }
        Session { centre, written, lines: 0 }
    }

    /// Reads a line, or the end of the input; tells whether the session goes on.
    pub fn read(&mut self, line: Option<&[u8]>, out: &mut Vec<u8>) -> bool {
        match line {
            Some(line) => self.treat(line, out),
            None => {
                if self.written == Written::LastScene {
                    self.centre.print_scene(out);
                }
                true
            }
        }
    }

    fn treat(&mut self, line: &[u8], out: &mut Vec<u8>) -> bool {
        self.lines += 1;
        let is_overlong = line.len() > LONGEST_LINE;
        let text = if is_overlong { b"" } else { line.strip_suffix(b"\r").unwrap_or(line) };
        if !is_overlong && words(text).next().map_or(true, |word| word[0] == b'#') {
            return true;
        }
        if self.written == Written::EachScene {
            out.extend_from_slice(b"request");
            print_next(out, self.lines);
            out.push(b' ');
            out.extend_from_slice(text);
            out.push(b'\n');
        }
        let (before, replied) = (self.centre.version(), out.len());
        if is_overlong {
            out.extend_from_slice(b"refused Overlong\n");
        } else if !self.centre.answer(text, out) {
            out.extend_from_slice(b"refused");
            print_fault(out, text);
            out.push(b'\n');
        }
        match self.written {
            Written::Replies => {}
            Written::LastScene => out.truncate(replied),
            Written::EachScene if self.centre.version() > before => self.centre.print_scene(out),
            Written::EachScene => {}
        }
        !is_overlong
    }
}
