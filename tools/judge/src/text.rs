//! The trace text: events and their lines.

use std::fmt;

pub const LONGEST_TEXT: usize = 65_536;
pub const LONGEST_LINE: usize = 112;
pub const LINE_1: &[u8] = b"rule threads";
pub const LINE_3: &[u8] = b"event thread what place value time";

/// The word that an event starts with.
#[derive(Clone, Copy, Debug, PartialEq, Eq, Hash)]
pub enum Word {
    Preset,
    Commit,
    Perform,
    Advance,
    Begin,
    End,
    Settle,
    Close,
}

impl Word {
    pub const ALL: [Word; 8] =
        [Word::Preset, Word::Commit, Word::Perform, Word::Advance, Word::Begin, Word::End, Word::Settle, Word::Close];

    pub fn name(self) -> &'static str {
        match self {
            Word::Preset => "preset",
            Word::Commit => "commit",
            Word::Perform => "perform",
            Word::Advance => "advance",
            Word::Begin => "begin",
            Word::End => "end",
            Word::Settle => "settle",
            Word::Close => "close",
        }
    }

    fn from_bytes(bytes: &[u8]) -> Option<Word> {
        Word::ALL.into_iter().find(|word| word.name().as_bytes() == bytes)
    }

    /// Which of thread, what, place, value and time the event uses.
    pub fn uses(self) -> [bool; 5] {
        match self {
            Word::Preset => [false, false, true, true, false],
            Word::Commit => [true, true, true, true, false],
            Word::Perform => [true, true, false, false, true],
            Word::Advance => [true, false, false, false, true],
            Word::Begin => [true, true, true, true, true],
            Word::End => [true, false, true, true, true],
            Word::Settle | Word::Close => [false; 5],
        }
    }
}

/// One event of a trace.
#[derive(Clone, Copy, Debug, PartialEq, Eq, Hash)]
pub struct Event {
    pub word: Word,
    pub thread: u64,
    pub what: u64,
    pub place: u64,
    pub value: u64,
    pub time: u64,
}

impl Event {
    fn of(word: Word, [thread, what, place, value, time]: [u64; 5]) -> Event {
        Event { word, thread, what, place, value, time }
    }

    pub fn numbers(&self) -> [u64; 5] {
        [self.thread, self.what, self.place, self.value, self.time]
    }

    pub fn with_numbers(&self, numbers: [u64; 5]) -> Event {
        Event::of(self.word, numbers)
    }

    pub fn preset(place: u64, value: u64) -> Event {
        Event::of(Word::Preset, [0, 0, place, value, 0])
    }

    pub fn commit(thread: u64, class: u64, place: u64, value: u64) -> Event {
        Event::of(Word::Commit, [thread, class, place, value, 0])
    }

    pub fn perform(thread: u64, number: u64, time: u64) -> Event {
        Event::of(Word::Perform, [thread, number, 0, 0, time])
    }

    pub fn advance(thread: u64, time: u64) -> Event {
        Event::of(Word::Advance, [thread, 0, 0, 0, time])
    }

    pub fn begin(thread: u64, kind: u64, place: u64, value: u64, time: u64) -> Event {
        Event::of(Word::Begin, [thread, kind, place, value, time])
    }

    pub fn end(thread: u64, place: u64, value: u64, time: u64) -> Event {
        Event::of(Word::End, [thread, 0, place, value, time])
    }

    pub fn settle() -> Event {
        Event::of(Word::Settle, [0; 5])
    }

    pub fn close() -> Event {
        Event::of(Word::Close, [0; 5])
    }
}

impl fmt::Display for Event {
    fn fmt(&self, f: &mut fmt::Formatter<'_>) -> fmt::Result {
        let [thread, what, place, value, time] = self.numbers();
        writeln!(f, "{} {thread} {what} {place} {value} {time}", self.word.name())
    }
}

/// A trace: the rule's name, the number of threads, and the events.
#[derive(Clone, Debug, PartialEq, Eq)]
pub struct Trace {
    pub rule: String,
    pub threads: u64,
    pub events: Vec<Event>,
}

impl fmt::Display for Trace {
    fn fmt(&self, f: &mut fmt::Formatter<'_>) -> fmt::Result {
        write!(f, "rule threads\n{} {}\nevent thread what place value time\n", self.rule, self.threads)?;
        self.events.iter().try_for_each(|event| event.fmt(f))
    }
}

/// The trace that a text writes, if the text is not garbled. It is not looked at whether calls are taken.
pub fn read_trace(text: &[u8]) -> Option<Trace> {
    let mut lines = text.strip_suffix(b"\n")?.split(|byte| *byte == b'\n');
    let (first, second, third) = (lines.next()?, lines.next()?, lines.next()?);
    let (rule, threads) = std::str::from_utf8(second).ok()?.split_once(' ')?;
    if first != LINE_1 || third != LINE_3 {
        return None;
    }
    let events = lines.map(|line| read_event(line).ok()).collect::<Option<Vec<Event>>>()?;
    Some(Trace { rule: rule.to_string(), threads: read_number(threads.as_bytes())?, events })
}

/// The event that a line without its line feed writes, or the code of what is wrong with it.
pub fn read_event(line: &[u8]) -> Result<Event, u64> {
    let fields: Vec<&[u8]> = line.split(|byte| *byte == b' ').collect();
    if fields.len() != 6 {
        return Err(44);
    }
    let word = Word::from_bytes(fields[0]).ok_or(45_u64)?;
    let mut numbers = [0; 5];
    for (number, field) in numbers.iter_mut().zip(&fields[1..]) {
        *number = read_number(field).ok_or(46_u64)?;
    }
    if numbers.iter().zip(word.uses()).any(|(number, used)| !used && *number != 0) {
        return Err(47);
    }
    Ok(Event::of(word, numbers))
}

/// The number that the bytes write, if they write one.
pub fn read_number(bytes: &[u8]) -> Option<u64> {
    if bytes.is_empty() || (bytes.len() > 1 && bytes[0] == b'0') {
        return None;
    }
    bytes.iter().try_fold(0_u64, |number, byte| {
        let digit = byte.is_ascii_digit().then(|| u64::from(byte - b'0'))?;
        number.checked_mul(10)?.checked_add(digit)
    })
}
