//! What `rbc steps`, `rbc check`, `rbc run TRACK`, `rbc show TRACK` and `rbc track TRACK --lines` do, as a plain program without
//! proofs: what the benchmarks measure the centre against, and what `benches/agree` compares it with. It knows well-formed
//! certificates and requests for steps alone, and stops at any other. Of a session it knows each line, up to one that is too long.

mod centre;
mod certificates;
mod faults;
mod reduce;
mod session;
mod text;
mod track;

use session::{Session, Written};
use std::io::{self, BufRead, BufReader, Write};
use std::process::ExitCode;
use track::Track;

const BUFFER: usize = 64 * 1024;

/// Answers each line of the standard input, and its end; stops where an answer says so. What stands in `out` is written first.
fn converse(mut out: Vec<u8>, mut answer: impl FnMut(Option<&[u8]>, &mut Vec<u8>) -> bool) -> io::Result<bool> {
    let mut reader = BufReader::with_capacity(BUFFER, io::stdin().lock());
    let mut writer = io::stdout().lock();
    let mut line = Vec::new();
    loop {
        line.clear();
        let is_end = reader.read_until(b'\n', &mut line)? == 0;
        if line.last() == Some(&b'\n') {
            line.pop();
        }
        let goes_on = answer((!is_end).then_some(&line), &mut out);
        if is_end || !goes_on {
            writer.write_all(&out)?;
            return Ok(goes_on);
        }
        if out.len() >= BUFFER / 2 || reader.buffer().is_empty() {
            writer.write_all(&out)?;
            out.clear();
        }
    }
}

/// Whether a line has neither a request nor a certificate.
fn is_blank(line: &[u8]) -> bool {
    line.is_empty() || line[0] == b'#'
}

fn talk(track: Track, written: Written) -> io::Result<bool> {
    let mut out = Vec::with_capacity(BUFFER);
    let mut session = Session::begin(track, written, &mut out);
    converse(out, |line, out| session.read(line, out))
}

fn tell(track: &Track) -> io::Result<bool> {
    let mut out = Vec::new();
    track.print(&mut out);
    io::stdout().write_all(&out).map(|()| true)
}

/// Does a task that needs a track.
fn on_track(file: &str, task: impl FnOnce(Track) -> io::Result<bool>) -> io::Result<bool> {
    match Track::read(&std::fs::read_to_string(file)?) {
        Some(track) => task(track),
        None => Err(io::Error::other("no track")),
    }
}

fn main() -> ExitCode {
    let words: Vec<String> = std::env::args().skip(1).collect();
    let words: Vec<&str> = words.iter().map(String::as_str).collect();
    let ended = match words[..] {
        ["steps"] => converse(Vec::new(), |line, out| line.map_or(true, |line| is_blank(line) || certificates::answer(line, out))),
        ["check"] => {
            let mut checker = certificates::Checker::default();
            converse(Vec::new(), |line, out| match line {
                Some(line) => is_blank(line) || checker.read(line, out),
                None => checker.judge(out),
            })
        }
        ["run", file] => on_track(file, |track| talk(track, Written::Replies)),
        ["show", "--each", file] | ["show", file, "--each"] => on_track(file, |track| talk(track, Written::EachScene)),
        ["show", file] => on_track(file, |track| talk(track, Written::LastScene)),
        ["track", "--lines", file] | ["track", file, "--lines"] => on_track(file, |track| tell(&track)),
        _ => {
            eprintln!("usage: plain steps | check | run TRACK | show [--each] TRACK | track --lines TRACK");
            return ExitCode::from(2);
        }
    };
    match ended {
        Ok(true) => ExitCode::SUCCESS,
        Ok(false) => {
            eprintln!("plain: a line that ends it");
            ExitCode::FAILURE
        }
        Err(error) => {
            eprintln!("plain: {error}");
            ExitCode::from(4)
        }
    }
}
