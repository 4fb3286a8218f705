//! What a line of a session that is no request is told: its first fault.

use crate::text::{is_name, number_to, print_next, print_word, words};

/// What a word has to be.
enum Form {
    Number(u64, u64),
    Group,
    Way,
    Name,
}

use Form::{Group, Name, Number, Way};

const TRAIN: Form = Number(1, 9_999_999);

impl Form {
    fn fits(&self, word: &[u8]) -> bool {
        match *self {
            Number(first, last) => number_to(word, first, last).is_some(),
            Way => word == b"nominal" || word == b"reverse",
            Name => is_name(word),
            Group => word.iter().position(|byte| *byte == b'/').is_some_and(|slash| {
                number_to(&word[..slash], 0, 1_023).is_some() && number_to(&word[slash + 1..], 0, 16_382).is_some()
            }),
        }
    }
}

/// What has to stand behind a command.
fn forms(command: &[u8]) -> Option<Vec<Form>> {
    let doubt = || Number(0, 10_000);
    Some(match command {
        b"report" => vec![TRAIN, Group, Way, Number(0, 100_000), doubt(), doubt(), Number(1, 4_095), Number(0, 4_294_967_294)],
        b"lock" | b"free" => vec![Name],
        b"leave" | b"ask" => vec![TRAIN],
        b"yield" => vec![TRAIN, Number(0, 100_000)],
        b"state" | b"scene" => vec![],
        _ => return None,
    })
}

/// Tells the first fault of a line that has words, and is no request.
pub fn print_fault(out: &mut Vec<u8>, line: &[u8]) {
    let all: Vec<&[u8]> = words(line).collect();
    if !line.iter().all(|byte| (b' '..=b'~').contains(byte)) {
        return print_word(out, b"NotText");
    }
    let Some(forms) = forms(all[0]) else { return print_word(out, b"Command") };
    if forms.len() + 1 != all.len() {
        return print_word(out, b"Words");
    }
    if let Some(at) = (0..forms.len()).find(|at| !forms[*at].fits(all[at + 1])) {
        print_word(out, if matches!(forms[at], Number(..)) { b"Number" } else { b"Name" });
        print_next(out, at as i64 + 2);
    }
}
