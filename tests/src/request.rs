//! What is asked of an implementation of the public calls, and what it replies.

use crate::law::cut::Setup;
use std::fmt;

/// A call and its numbers.
#[derive(Clone, Copy, Debug)]
pub enum Call {
    Open,
    Point { array: u32, segment: u32, point: u32 },
    Fill { array: u32, segment: u32 },
    // The level by its bits, so that every double can be asked for.
    Crossing { array: u32, segment: u32, level: u64 },
    // The columns' leasts go to `least`, their greatests to `greatest`.
    Strip { array: u32, segment: u32, columns: u32 },
    Cut { setup: Setup, order: u32 },
    // The one cut for cut a, then cut b, which answered `count`; it takes no block.
    Combined { a: Setup, b: Setup, count: u32 },
    // `block` holds the line.
    SetupRead,
    // The normal line goes to `out`; it takes no block.
    SetupWrite { setup: Setup },
    // `block` holds the parts, back to back.
    Join,
    Narrow,
    // Where the payload and its ten parts start, with the fields that say so.
    Layout,
    // Where the user text stands in the block.
    TextPlace,
    // Where the label stands, in the block or in a fallback of so many bytes.
    LabelPlace { fallback: usize },
    // A fill of floats, in Rattle; they go to `answer`.
    Floats { array: u32, segment: u32 },
    // The same floats by a walk, point by point.
    WalkedFloats { array: u32, segment: u32 },
    // A walk until it is done: the values go to `out`, the times to `answer`, the marks to `marks`.
    Walk { array: u32, segment: u32 },
    // The step of a walk after the first k; its mark goes to `marks`.
    Step { array: u32, segment: u32, k: u32 },
    // The user text itself.
    UserText,
    // The label itself, with a fallback of so many bytes.
    Label { fallback: usize },
}

impl Call {
    /// How many calls there are, by name.
    pub const NAMES: usize = 20;

    pub fn name(&self) -> &'static str {
        match self {
            Call::Open => "open",
            Call::Point { .. } => "point",
            Call::Fill { .. } => "fill",
            Call::Crossing { .. } => "crossing",
            Call::Strip { .. } => "strip",
            Call::Cut { .. } => "cut",
            Call::Combined { .. } => "combined setup",
            Call::SetupRead => "setup read",
            Call::SetupWrite { .. } => "setup write",
            Call::Join => "join",
            Call::Narrow => "narrow",
            Call::Layout => "layout",
            Call::TextPlace => "place of user text",
            Call::LabelPlace { .. } => "place of label",
            Call::Floats { .. } => "fill of floats",
            Call::WalkedFloats { .. } => "walk of floats",
            Call::Walk { .. } => "walk",
            Call::Step { .. } => "step",
            Call::UserText => "user text",
            Call::Label { .. } => "label",
        }
    }

    /// The refusal in the number returned, or 0 for none; the calls without one return a length.
    pub fn refusal(&self, returned: u64) -> Option<u64> {
        match self {
            Call::Step { .. } | Call::UserText | Call::Label { .. } => None,
            // In the low half stands how many samples are at the rail.
            Call::Floats { .. } | Call::WalkedFloats { .. } => Some(returned >> 32),
            _ => Some(returned),
        }
    }

    /// The number returned, as a difference tells of it.
    pub fn in_words(&self, returned: u64) -> String {
        match self {
            Call::Floats { .. } | Call::WalkedFloats { .. } => {
                format!("{} with {} at the rail", returned >> 32, returned & 0xFFFF_FFFF)
            }
            _ => returned.to_string(),
        }
    }

    /// Whether `out` and `answer` are lent as floats.
    pub fn takes_floats(&self) -> bool {
        matches!(
            self,
            Call::Floats { .. } | Call::WalkedFloats { .. } | Call::Walk { .. } | Call::Step { .. }
        )
    }
}

impl fmt::Display for Call {
    fn fmt(&self, f: &mut fmt::Formatter) -> fmt::Result {
        write!(f, "{}", self.name())?;
        match self {
            Call::Open | Call::SetupRead | Call::Join | Call::Narrow => Ok(()),
            Call::Layout | Call::TextPlace | Call::UserText => Ok(()),
            Call::Point { array, segment, point } => {
                write!(f, ": array {array}, segment {segment}, point {point}")
            }
            Call::Fill { array, segment }
            | Call::Floats { array, segment }
            | Call::WalkedFloats { array, segment }
            | Call::Walk { array, segment } => write!(f, ": array {array}, segment {segment}"),
            Call::Crossing { array, segment, level } => {
                let number = f64::from_bits(*level);
                write!(f, ": array {array}, segment {segment}, level {level:016X} ({number:e})")
            }
            Call::Strip { array, segment, columns } => {
                write!(f, ": array {array}, segment {segment}, columns {columns}")
            }
            Call::Cut { setup, order } => write!(f, ": {setup}, order {order}"),
            Call::Combined { a, b, count } => write!(f, ": {a}; then {b}, c {count}"),
            Call::SetupWrite { setup } => write!(f, ": {setup}"),
            Call::Step { array, segment, k } => {
                write!(f, ": array {array}, segment {segment}, after {k}")
            }
            Call::LabelPlace { fallback } | Call::Label { fallback } => {
                write!(f, ": fallback of {fallback}")
            }
        }
    }
}

impl fmt::Display for Setup {
    fn fmt(&self, f: &mut fmt::Formatter) -> fmt::Result {
        let Setup { sp, np, fp, sn } = self;
        write!(f, "SP {sp}, NP {np}, FP {fp}, SN {sn}")
    }
}

/// A call with the slices lent to it, and what they hold before it. `fallback` is empty but for a
/// label and its place, `out` but for a cut, a setup write, a join, a narrowing and a walk, `marks` but
/// for a walk and a step, `least` and `greatest` but for a strip. A combined setup and a setup write
/// take no block. Floats are lent as their bytes, the low byte first.
#[derive(Clone)]
pub struct Request<'a> {
    pub call: Call,
    pub block: &'a [u8],
    /// How many bytes at the end of the block cannot be touched: whole pages, and no other call than
    /// a crossing leaves them alone.
    pub unread: usize,
    pub fallback: Vec<u8>,
    pub out: Vec<u8>,
    pub answer: Vec<u8>,
    pub marks: Vec<u8>,
    pub least: Vec<u8>,
    pub greatest: Vec<u8>,
}

impl Request<'_> {
    /// 0, and the slices as they are lent.
    pub fn as_lent(&self) -> Reply {
        Reply {
            number: 0,
            block: self.block.to_vec(),
            fallback: self.fallback.clone(),
            out: self.out.clone(),
            answer: self.answer.clone(),
            marks: self.marks.clone(),
            least: self.least.clone(),
            greatest: self.greatest.clone(),
            spoiled: vec![],
        }
    }
}

/// The number returned, and what the slices hold after the call.
#[derive(PartialEq)]
pub struct Reply {
    pub number: u64,
    pub block: Vec<u8>,
    pub fallback: Vec<u8>,
    pub out: Vec<u8>,
    pub answer: Vec<u8>,
    pub marks: Vec<u8>,
    pub least: Vec<u8>,
    pub greatest: Vec<u8>,
    /// The slices, by name, that no longer have their known bytes before them.
    pub spoiled: Vec<&'static str>,
}

impl Reply {
    /// Number i of the answer.
    pub fn number_at(&self, i: usize) -> u64 {
        let bytes = self.answer[8 * i..8 * i + 8].try_into().expect("eight bytes");
        u64::from_be_bytes(bytes)
    }

    /// The block that an accepted cut or join wrote.
    pub fn written(&self) -> &[u8] {
        self.out_by(1)
    }

    /// The block that an accepted narrowing wrote.
    pub fn narrowed(&self) -> &[u8] {
        self.out_by(0)
    }

    /// The line that an accepted setup write wrote.
    pub fn line(&self) -> &[u8] {
        self.out_by(0)
    }

    /// What was written to `out`, by the number of the answer that is its length; nothing where a
    /// wrong version accepts a call without room for it.
    fn out_by(&self, i: usize) -> &[u8] {
        let length = if self.answer.len() < 8 * i + 8 { 0 } else { self.number_at(i) as usize };
        &self.out[..length.min(self.out.len())]
    }
}

/// Something that answers the calls.
pub trait Core {
    /// The reply, or in words why there is none.
    fn ask(&mut self, request: &Request) -> Result<Reply, String>;
}
