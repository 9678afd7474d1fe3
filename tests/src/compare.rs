//! The comparison: every reply against that of the independent implementation, byte for byte.

use crate::calls::Calls;
use crate::chains::MOST_CUTS;
use crate::request::{Call, Core, Reply, Request};
use std::collections::BTreeMap;
use std::fmt::Display;

/// The refusals that a run must see: all that the calls give.
const REFUSALS: [u64; 17] = [1, 2, 3, 4, 5, 6, 7, 8, 9, 10, 11, 12, 13, 15, 16, 19, 20];

/// What has been compared so far.
#[derive(Default)]
pub struct Tally {
    /// How often each call was made, by its name.
    pub calls: BTreeMap<&'static str, u64>,
    /// How often each number came, 0 among them; one that never came is not in it.
    pub seen: BTreeMap<u64, u64>,
    /// Blocks that a cut wrote and that were opened, and those that a narrowing wrote.
    pub cut_blocks: u64,
    pub narrowed_blocks: u64,
    /// Blocks whose parts and texts stand where the calls say.
    pub placed_blocks: u64,
    /// Blocks whose marks are those of the samples they were made of.
    pub marked_blocks: u64,
    /// Blocks that a join wrote and whose segments are the parts.
    pub joined_blocks: u64,
    /// Chains of cuts that are one cut, and how many of them are of the most cuts.
    pub chains: u64,
    pub longest_chains: u64,
    /// Blocks of words that were narrowed and have the values of their samples' high bytes, and
    /// blocks of bytes that have the points they had.
    pub word_blocks: u64,
    pub byte_blocks: u64,
    /// Blocks that are the same narrowed once and twice.
    pub narrowed_twice: u64,
    /// Narrowings and cuts that changed places and wrote the same, and those refused both ways.
    pub changed_places: u64,
    pub refused_both_ways: u64,
    /// Crossings at the places they were made for, or none.
    pub placed_crossings: u64,
    /// Crossings of blocks that cannot be read to their end.
    pub unread_crossings: u64,
    /// Crossings at the first value at the level, and segments whose values are all below it.
    pub crossings: u64,
    pub uncrossed: u64,
    /// Crossings that are the same with other samples behind them.
    pub changed_behind: u64,
    /// Levels that were raised and not crossed earlier.
    pub raised_levels: u64,
    /// Cuts that cross where their points do.
    pub cut_crossings: u64,
    /// Strips of the samples that their blocks were made of.
    pub known_strips: u64,
    /// Strips of the values of their points.
    pub valued_strips: u64,
    /// Segments that have the same least, greatest and three numbers in any columns.
    pub parted_segments: u64,
    /// Strips that are those of twice as many columns, joined in pairs.
    pub paired_strips: u64,
    /// Segments whose strips are those of what is cut of them.
    pub cut_strips: u64,
    /// Lines with the numbers that they were made of, and those refused for the faults they were made
    /// with.
    pub known_lines: u64,
    pub faulty_lines: u64,
    /// Setups that were written, or refused, as their digits and the room have it.
    pub known_setups: u64,
    /// Setups that are read back from what was written.
    pub read_back: u64,
    /// Lines that have one normal line.
    pub normal_lines: u64,
    /// Setups that are read the same from several spellings.
    pub respelled: u64,
    /// Lines that are none with one byte more.
    pub ended_lines: u64,
}

impl Tally {
    /// What a run must have and this one has not, in words.
    pub fn missing(&self) -> Option<String> {
        let came = |number: &u64| self.seen.contains_key(number);
        let unseen: Vec<u64> = REFUSALS.into_iter().filter(|number| !came(number)).collect();
        if !unseen.is_empty() {
            return Some(format!("refusals {unseen:?} were never seen"));
        }
        if self.calls.len() < Call::NAMES {
            return Some(format!("{:?} alone were asked", self.calls));
        }
        let absent = |(_, count): &(String, u64)| *count == 0;
        self.checked().into_iter().find(absent).map(|(what, _)| format!("no {what}"))
    }

    /// What was found on the core's own answers, and how often.
    pub fn checked(&self) -> [(String, u64); 31] {
        [
            ("cut blocks that opened".into(), self.cut_blocks),
            ("narrowed blocks that opened".into(), self.narrowed_blocks),
            ("blocks with parts and texts in their places".into(), self.placed_blocks),
            ("blocks with the marks of their samples".into(), self.marked_blocks),
            ("joined blocks with the segments of their parts".into(), self.joined_blocks),
            ("chains of cuts that are one cut".into(), self.chains),
            (format!("chains of {MOST_CUTS} cuts among them"), self.longest_chains),
            ("blocks of words with the values of their high bytes".into(), self.word_blocks),
            ("blocks of bytes with the points they had".into(), self.byte_blocks),
            ("blocks that are the same narrowed twice".into(), self.narrowed_twice),
            ("narrowings and cuts that changed places".into(), self.changed_places),
            ("narrowings and cuts that were refused both ways".into(), self.refused_both_ways),
            ("crossings at known places".into(), self.placed_crossings),
            ("crossings of blocks that were not read to their end".into(), self.unread_crossings),
            ("crossings at the first value there".into(), self.crossings),
            ("segments with every value below".into(), self.uncrossed),
            ("crossings with other samples behind them".into(), self.changed_behind),
            ("levels that were raised".into(), self.raised_levels),
            ("cuts that cross where their points do".into(), self.cut_crossings),
            ("strips of known samples".into(), self.known_strips),
            ("strips of the values of their points".into(), self.valued_strips),
            ("segments that are the same in any columns".into(), self.parted_segments),
            ("strips of columns joined in pairs".into(), self.paired_strips),
            ("segments with the strips of their cuts".into(), self.cut_strips),
            ("lines of known numbers".into(), self.known_lines),
            ("lines of known faults".into(), self.faulty_lines),
            ("setups with the line of their digits".into(), self.known_setups),
            ("setups read back as they were written".into(), self.read_back),
            ("lines with one normal line".into(), self.normal_lines),
            ("setups that are the same in any spelling".into(), self.respelled),
            ("lines that are none with one byte more".into(), self.ended_lines),
        ]
    }

    /// How many calls were made.
    pub fn all_calls(&self) -> u64 {
        self.calls.values().sum()
    }
}

/// Counts in words.
pub fn counts<K: Display>(counts: &BTreeMap<K, u64>) -> String {
    let counts = counts.iter().map(|(what, count)| format!("{what}: {count}"));
    counts.collect::<Vec<_>>().join(", ")
}

/// A difference, in words.
pub struct Difference(pub String);

/// Asks a core, and compares each reply with that of the law.
pub struct Checker<'a> {
    core: &'a mut dyn Core,
    law: Calls,
    pub tally: Tally,
    /// Print each call, and the block of a difference.
    pub verbose: bool,
}

impl<'a> Checker<'a> {
    pub fn new(core: &'a mut dyn Core, law: Calls) -> Checker<'a> {
        Checker { core, law, tally: Tally::default(), verbose: false }
    }

    /// The core's reply, which is also the one expected.
    pub fn ask(&mut self, request: &Request) -> Result<Reply, Difference> {
        let expected = self.law.ask(request).map_err(|why| {
            self.difference(request, &[format!("the independent implementation: {why}")])
        })?;
        if self.verbose {
            println!("{}: {}", describe(request), request.call.in_words(expected.number));
        }
        let came = self.core.ask(request).map_err(|why| {
            let number = request.call.in_words(expected.number);
            self.difference(request, &[format!("expected {number}, and {why}")])
        })?;
        *self.tally.calls.entry(request.call.name()).or_default() += 1;
        if let Some(refusal) = request.call.refusal(expected.number) {
            *self.tally.seen.entry(refusal).or_default() += 1;
        }
        if came != expected {
            return Err(self.difference(request, &differences(request.call, &expected, &came)));
        }
        Ok(came)
    }

    /// The reply to a call that nothing refuses.
    pub fn accepted(&mut self, request: &Request) -> Result<Reply, Difference> {
        let reply = self.ask(request)?;
        same(&format!("{}: refusal", request.call), reply.number, 0)?;
        Ok(reply)
    }

    fn difference(&self, request: &Request, lines: &[String]) -> Difference {
        let mut text = describe(request);
        lines.iter().for_each(|line| text += &format!("\n    {line}"));
        if self.verbose {
            text += &format!("\n    block: {}", hex(request.block));
        }
        Difference(text)
    }
}

fn describe(request: &Request) -> String {
    let Request { call, block, unread, out, answer, marks, least, greatest, .. } = request;
    // A line shows by itself what is wrong.
    let line = match call {
        Call::SetupRead => format!(" of \"{}\"", block.escape_ascii()),
        _ => String::new(),
    };
    let (block, out, answer, marks) = (block.len(), out.len(), answer.len(), marks.len());
    let (least, greatest) = (least.len(), greatest.len());
    let unread = if *unread == 0 { String::new() } else { format!(" ({unread} of it unread)") };
    format!(
        "{call}{line}; block of {block}{unread}, out of {out}, answer of {answer}, marks of {marks}, least of {least}, greatest of {greatest}"
    )
}

fn differences(call: Call, expected: &Reply, came: &Reply) -> Vec<String> {
    let mut lines = vec![];
    if expected.number != came.number {
        let [expected, came] = [expected, came].map(|reply| call.in_words(reply.number));
        lines.push(format!("number: expected {expected}, came {came}"));
    }
    for slice in &came.spoiled {
        lines.push(format!("{slice}: the bytes before it have changed"));
    }
    lines.extend(slice_difference("block", &expected.block, &came.block));
    lines.extend(slice_difference("fallback", &expected.fallback, &came.fallback));
    lines.extend(slice_difference("out", &expected.out, &came.out));
    lines.extend(slice_difference("answer", &expected.answer, &came.answer));
    lines.extend(slice_difference("marks", &expected.marks, &came.marks));
    lines.extend(slice_difference("least", &expected.least, &came.least));
    lines.extend(slice_difference("greatest", &expected.greatest, &came.greatest));
    lines
}

/// Two numbers that must be one.
pub fn same(what: &str, came: u64, expected: u64) -> Result<(), Difference> {
    if came != expected {
        return Err(Difference(format!("{what}: {came}, not {expected}")));
    }
    Ok(())
}

/// How two replies of a core differ that should be one: the number, then what they left.
pub fn reply_difference(first: &Reply, second: &Reply) -> Option<String> {
    let numbers = (first.number != second.number)
        .then(|| format!("numbers {} and {}", first.number, second.number));
    let out = || slice_difference("out", &first.out, &second.out);
    let answer = || slice_difference("answer", &first.answer, &second.answer);
    let marks = || slice_difference("marks", &first.marks, &second.marks);
    let least = || slice_difference("least", &first.least, &second.least);
    let greatest = || slice_difference("greatest", &first.greatest, &second.greatest);
    numbers.or_else(out).or_else(answer).or_else(marks).or_else(least).or_else(greatest)
}

/// Where two contents of a slice first differ, with the bytes from there on.
fn slice_difference(name: &str, expected: &[u8], came: &[u8]) -> Option<String> {
    let count = expected.iter().zip(came).filter(|(a, b)| a != b).count();
    let first = expected.iter().zip(came).position(|(a, b)| a != b)?;
    let part = |bytes: &[u8]| hex(&bytes[first..bytes.len().min(first + 16)]);
    let (expected, came) = (part(expected), part(came));
    Some(format!(
        "{name}: differs from byte {first} on ({count} in all): expected {expected}, came {came}"
    ))
}

fn hex(bytes: &[u8]) -> String {
    bytes.iter().map(|byte| format!("{byte:02X}")).collect::<Vec<_>>().join(" ")
}
