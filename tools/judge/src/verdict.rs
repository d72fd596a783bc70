//! The verdict of a text: what makes it garbled, and how its lines become calls.

use crate::rule::Rule;
use crate::text::{Event, LINE_1, LINE_3, LONGEST_LINE, LONGEST_TEXT, Word, read_event, read_number};
use crate::watch::{Conviction, Fault, Refusal, Watch};
use std::fmt;

pub const VERDICT_HEAD: &str = "verdict line code thread number other\n";

/// The verdict of a text.
#[derive(Clone, Copy, Debug, PartialEq, Eq)]
pub enum Verdict {
    Clean { line: u64 },
    Convicted { line: u64, conviction: Conviction },
    Refused { line: u64, refusal: Refusal },
    Garbled { line: u64, code: u64 },
}

impl Verdict {
    fn of(line: u64, fault: Fault) -> Verdict {
        match fault {
            Fault::Refused(refusal) => Verdict::Refused { line, refusal },
            Fault::Convicted(conviction) => Verdict::Convicted { line, conviction },
        }
    }

    /// The word, the code and, for a passed limit, its number: what the tables of verdicts count.
    pub fn label(&self) -> String {
        match self {
            Verdict::Clean { .. } => "clean".to_string(),
            Verdict::Convicted { conviction, .. } => format!("convicted {}", conviction.law),
            Verdict::Refused { refusal: Refusal::Limit(limit), .. } => format!("refused 12, limit {limit}"),
            Verdict::Refused { refusal, .. } => format!("refused {}", refusal.code()),
            Verdict::Garbled { code, .. } => format!("garbled {code}"),
        }
    }
}

impl fmt::Display for Verdict {
    fn fmt(&self, f: &mut fmt::Formatter<'_>) -> fmt::Result {
        f.write_str(VERDICT_HEAD)?;
        match self {
            Verdict::Clean { line } => writeln!(f, "clean {line} 0 0 0 0"),
            Verdict::Convicted { line, conviction: Conviction { law, thread, number, other } } => {
                writeln!(f, "convicted {line} {law} {thread} {number} {other}")
            }
            Verdict::Refused { line, refusal } => {
                writeln!(f, "refused {line} {} 0 {} 0", refusal.code(), refusal.limit())
            }
            Verdict::Garbled { line, code } => writeln!(f, "garbled {line} {code} 0 0 0"),
        }
    }
}

/// The verdict of a text.
pub fn judge(text: &[u8]) -> Verdict {
    if text.len() > LONGEST_TEXT {
        return Verdict::Garbled { line: 0, code: 41 };
    }
    match run(&mut Lines { rest: text, line: 0 }) {
        Ok(line) => Verdict::Clean { line },
        Err(verdict) => verdict,
    }
}

/// Reads the text to its end, and answers the line of the close.
fn run(lines: &mut Lines) -> Result<u64, Verdict> {
    lines.want(LINE_1)?;
    let mut watch = make(lines)?;
    lines.want(LINE_3)?;
    loop {
        let line = lines.next()?;
        let event = read_event(line).map_err(|code| lines.garbled(code))?;
        call(&mut watch, &event).map_err(|fault| Verdict::of(lines.line, fault))?;
        if event.word == Word::Close {
            break;
        }
    }
    let close = lines.line;
    if lines.rest.is_empty() { Ok(close) } else { Err(Verdict::Garbled { line: close + 1, code: 48 }) }
}

/// Reads line 2 and makes the watch.
fn make(lines: &mut Lines) -> Result<Watch, Verdict> {
    let line = lines.next()?;
    let fields: Vec<&[u8]> = line.split(|byte| *byte == b' ').collect();
    let [name, number] = fields[..] else {
        return Err(lines.garbled(44));
    };
    let rule = Rule::named(name).ok_or_else(|| lines.garbled(45))?;
    let threads = read_number(number).ok_or_else(|| lines.garbled(46))?;
    Watch::new(rule, threads).map_err(|refusal| Verdict::Refused { line: lines.line, refusal })
}

/// The lines of a text that are not read yet, and the number of the one read last.
struct Lines<'a> {
    rest: &'a [u8],
    line: u64,
}

impl<'a> Lines<'a> {
    /// The next line without its line feed.
    fn next(&mut self) -> Result<&'a [u8], Verdict> {
        self.line += 1;
        if self.rest.is_empty() {
            return Err(self.garbled(48));
        }
        let end = self.rest.iter().position(|byte| *byte == b'\n').ok_or_else(|| self.garbled(42))?;
        if end + 1 > LONGEST_LINE {
            return Err(self.garbled(42));
        }
        let (line, rest) = self.rest.split_at(end);
        self.rest = &rest[1..];
        Ok(line)
    }

    /// Reads a line that has to be just this one.
    fn want(&mut self, wanted: &[u8]) -> Result<(), Verdict> {
        if self.next()? == wanted { Ok(()) } else { Err(self.garbled(43)) }
    }

    fn garbled(&self, code: u64) -> Verdict {
        Verdict::Garbled { line: self.line, code }
    }
}

/// Makes the call of an event, and after an end reports its notice.
pub fn call(watch: &mut Watch, event: &Event) -> Result<(), Fault> {
    let [thread, what, place, value, time] = event.numbers();
    match event.word {
        Word::Preset => watch.preset(place, value),
        Word::Commit => watch.commit(thread, what, place, value).map(|_| ()),
        Word::Perform => watch.perform(thread, what, time).map(|_| ()),
        Word::Advance => watch.advance(thread, time),
        Word::Begin => watch.begin(thread, what, place, value, time),
        Word::End => end_and_report(watch, thread, place, value, time),
        Word::Settle => watch.settle().map(|_| ()),
        Word::Close => watch.close(),
    }
}

fn end_and_report(watch: &mut Watch, thread: u64, place: u64, value: u64, time: u64) -> Result<(), Fault> {
    let notice = watch.end(thread, place, value, time)?;
    let Err((_, notice)) = watch.report(notice) else {
        return Ok(());
    };
    if let Err(fault) = watch.settle() {
        let _ = watch.drop_notice(notice);
        return Err(fault);
    }
    let Err((refusal, notice)) = watch.report(notice) else {
        return Ok(());
    };
    let _ = watch.drop_notice(notice);
    Err(Fault::Refused(refusal))
}

#[cfg(test)]
mod tests {
    use super::*;

    const EXAMPLE: &str = "rule threads
tso 2
event thread what place value time
commit 0 1 3 7 0
commit 0 0 4 0 0
begin 0 0 4 0 1
perform 0 1 0 0 2
begin 0 1 3 0 3
perform 0 0 0 0 4
end 0 0 4 0 5
end 0 0 3 7 5
close 0 0 0 0 0
";

    fn second_line(text: &[u8]) -> String {
        judge(text).to_string().strip_prefix(VERDICT_HEAD).unwrap().trim_end().to_string()
    }

    #[test]
    fn the_example_is_clean() {
        let expected = "verdict line code thread number other\nclean 12 0 0 0 0\n";
        assert_eq!(judge(EXAMPLE.as_bytes()).to_string(), expected);
    }

    #[test]
    fn the_example_under_sc_is_convicted() {
        assert_eq!(second_line(EXAMPLE.replace("tso", "sc").as_bytes()), "convicted 7 22 0 1 0");
    }

    #[test]
    fn texts_that_end_too_early_lack_a_line() {
        assert_eq!(second_line(b""), "garbled 1 48 0 0 0");
        assert_eq!(second_line(b"rule threads\n"), "garbled 2 48 0 0 0");
        assert_eq!(second_line(b"rule threads\nsc 1\n"), "garbled 3 48 0 0 0");
        assert_eq!(second_line(EXAMPLE.replace("close 0 0 0 0 0\n", "").as_bytes()), "garbled 12 48 0 0 0");
    }

    #[test]
    fn texts_that_go_on_tell_the_next_line() {
        for more in ["\n", "x", "close 0 0 0 0 0\n", " "] {
            assert_eq!(second_line(format!("{EXAMPLE}{more}").as_bytes()), "garbled 13 48 0 0 0");
        }
    }

    #[test]
    fn text_length_is_looked_at_first() {
        let long = |length: usize| vec![b'x'; length];
        assert_eq!(second_line(&long(65_537)), "garbled 0 41 0 0 0");
        assert_eq!(second_line(&long(65_536)), "garbled 1 42 0 0 0");
    }

    #[test]
    fn lines_have_at_most_112_bytes_and_a_line_feed() {
        let text = |line: &str| format!("rule threads\nsc 1\nevent thread what place value time\n{line}");
        let max = u64::MAX.to_string();
        let longest = format!("begin {max} {max} {max} {max} {max}\n");
        assert_eq!(longest.len(), 111);
        assert_eq!(second_line(text(&longest).as_bytes()), "refused 4 4 0 0 0");
        let preset = format!("preset {max} {max} {max} {max} {max}\n");
        assert_eq!(preset.len(), 112);
        assert_eq!(second_line(text(&preset).as_bytes()), "garbled 4 47 0 0 0");
        let perform = format!("perform {max} {max} {max} {max} {max}\n");
        assert_eq!(second_line(text(&perform).as_bytes()), "garbled 4 42 0 0 0");
        assert_eq!(second_line(text("close 0 0 0 0 0").as_bytes()), "garbled 4 42 0 0 0");
        assert_eq!(second_line(b"rule threads"), "garbled 1 42 0 0 0");
    }

    #[test]
    fn faults_of_a_line_have_an_order() {
        let text = |line: &str| format!("rule threads\nsc 1\nevent thread what place value time\n{line}\n");
        for (line, code) in [
            ("", 44),
            ("x 0 0 0 0", 44),
            ("close 0 0 0 0 0 ", 44),
            ("close  0 0 0 0 0", 44),
            ("x 0 a 0 0 0", 45),
            (" 0 0 0 0 0", 45),
            ("Close 0 0 0 0 0", 45),
            ("close 1 0 a 0 0", 46),
            ("close 0 0 00 0 0", 46),
            ("close 0 0 01 0 0", 46),
            ("close 0 0 +1 0 0", 46),
            ("close 0 0  0 0", 46),
            ("close 0 0 0 0 0\r", 46),
            ("close 0 0 0 0 18446744073709551616", 46),
            ("close 0 0 0 0 18446744073709551615", 47),
            ("perform 9 0 1 0 0", 47),
        ] {
            assert_eq!(second_line(text(line).as_bytes()), format!("garbled 4 {code} 0 0 0"), "{line}");
        }
    }

    #[test]
    fn faults_of_the_first_lines_have_an_order() {
        for (text, told) in [
            ("rule thread\n", "garbled 1 43 0 0 0"),
            ("\n", "garbled 1 43 0 0 0"),
            ("rule threads\nsc\n", "garbled 2 44 0 0 0"),
            ("rule threads\nsc 1 \n", "garbled 2 44 0 0 0"),
            ("rule threads\nSC x\n", "garbled 2 45 0 0 0"),
            ("rule threads\nsc x\n", "garbled 2 46 0 0 0"),
            ("rule threads\nsc 0\n", "refused 2 1 0 0 0"),
            ("rule threads\nsc 5\n", "refused 2 1 0 0 0"),
            ("rule threads\nsc 5\nx\n", "refused 2 1 0 0 0"),
            ("rule threads\nsc 4\nx y\n", "garbled 3 43 0 0 0"),
        ] {
            assert_eq!(second_line(text.as_bytes()), told, "{text}");
        }
    }

    #[test]
    fn events_are_written_as_they_are_read() {
        for line in EXAMPLE.lines().skip(3) {
            assert_eq!(read_event(line.as_bytes()).unwrap().to_string(), format!("{line}\n"));
        }
    }
}
