//! Whole transcripts: the bytes of an input in, the bytes of the output out.

use crate::faults::{limits, Fault};
use crate::line::{Answer, Entry, Line, Reply, Terminal};
use crate::paths::{self, Path};

pub fn transcript(input: &[u8], fault: Option<Fault>) -> Vec<u8> {
    if input.len() > limits(fault).input {
        return b"refused 17\n".to_vec();
    }
    let mut lines = lines(input, fault).into_iter();
    let text = lines.next().unwrap_or_default();
    let output = match paths::read(text, fault) {
        Ok(path) => session(&path, lines, fault),
        Err(refused) => format!("refused {} at {}\n", refused.number, refused.place),
    };
    output.into_bytes()
}

/// The reply to one call line, and its effect on the line.
pub fn answer(line: &mut Line, call: &[u8], fault: Option<Fault>) -> Answer {
    match read_call(call, fault).ok_or(16)? {
        Call::Ask(terminal, name) => line.ask(terminal, name),
        Call::Finish(terminal) => line.finish(terminal),
        Call::Withdraw(terminal) => line.withdraw(terminal),
    }
}

enum Call<'a> {
    Ask(Terminal, &'a [u8]),
    Finish(Terminal),
    Withdraw(Terminal),
}

fn session<'a>(path: &Path, calls: impl Iterator<Item = &'a [u8]>, fault: Option<Fault>) -> String {
    let distinct = path.positions == path.names.len();
    let mark = u8::from(distinct || fault == Some(Fault::MarkAlwaysOne));
    let mut output = format!("path {} {} {}\n", path.positions, path.names.len(), mark);
    let mut line = Line::open(path, fault);
    for call in calls {
        output += &shown(answer(&mut line, call, fault), fault);
        output.push('\n');
    }
    output
}

fn lines(input: &[u8], fault: Option<Fault>) -> Vec<&[u8]> {
    let mut lines: Vec<&[u8]> = input.split(|&byte| byte == b'\n').collect();
    // After the last LF there is a line only if there are bytes.
    let bare = lines.last().is_some_and(|last| last.is_empty());
    if bare && fault != Some(Fault::EmptyLastLine) || fault == Some(Fault::LastLineNeedsLf) {
        lines.pop();
    }
    if fault == Some(Fault::CrStripped) {
        return lines
            .into_iter()
            .map(|line| line.strip_suffix(b"\r").unwrap_or(line))
            .collect();
    }
    lines
}

/// Nothing, if the line cannot be read.
fn read_call(mut line: &[u8], fault: Option<Fault>) -> Option<Call<'_>> {
    if fault == Some(Fault::TrailingSpace) {
        line = line.strip_suffix(b" ").unwrap_or(line);
    }
    let is_space = |byte: &u8| *byte == b' ' || fault == Some(Fault::TabIsSpace) && *byte == b'\t';
    let mut fields: Vec<&[u8]> = line.split(is_space).collect();
    if fault == Some(Fault::SpacesAsOne) {
        fields.retain(|field| !field.is_empty());
    }
    match fields[..] {
        [b"ask", terminal, name] if !name.is_empty() || fault == Some(Fault::EmptyName) => {
            Some(Call::Ask(read_terminal(terminal, fault)?, name))
        }
        [b"finish", terminal] => Some(Call::Finish(read_terminal(terminal, fault)?)),
        [b"withdraw", terminal] => Some(Call::Withdraw(read_terminal(terminal, fault)?)),
        _ => None,
    }
}

/// One to three digits; leading zeros may stand.
fn read_terminal(field: &[u8], fault: Option<Fault>) -> Option<Terminal> {
    let most = if fault == Some(Fault::FourDigits) { 4 } else { 3 };
    let readable = (1..=most).contains(&field.len()) && field.iter().all(u8::is_ascii_digit);
    let padded = field.len() > 1 && field[0] == b'0';
    if !readable || padded && fault == Some(Fault::NoLeadingZeros) {
        return None;
    }
    let number = field.iter().fold(0, |sum, digit| sum * 10 + usize::from(digit - b'0'));
    Some(Terminal(number))
}

fn shown(answer: Answer, fault: Option<Fault>) -> String {
    match answer {
        Ok(Reply::Granted) => "granted".into(),
        Ok(Reply::Delayed(ahead)) => format!("delayed {ahead}"),
        Ok(Reply::Finished { examined, granted }) => format!("finished {examined}{}", shown_grant(granted, fault)),
        Ok(Reply::Withdrawn(place)) => format!("withdrawn {place}"),
        Err(number) => format!("refused {number}"),
    }
}

fn shown_grant(granted: Option<Entry>, fault: Option<Fault>) -> String {
    match granted {
        None => String::new(),
        Some(entry) if fault == Some(Fault::GrantedNameMissing) => format!(" granted {}", entry.terminal.0),
        Some(entry) => format!(" granted {} {}", entry.terminal.0, entry.name),
    }
}
