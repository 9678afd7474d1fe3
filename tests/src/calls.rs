//! The calls of an implementation within this program, and its replies.

use crate::law::cut::Setup;
use crate::request::{Call, Core, Reply, Request};
use std::panic::{catch_unwind, AssertUnwindSafe};

/// An implementation within this program.
#[derive(Clone, Copy)]
#[allow(clippy::type_complexity)] // the calls' own parameters
pub struct Calls {
    pub open: fn(&[u8], &mut [u8]) -> u32,
    pub point: fn(&[u8], u32, u32, u32, &mut [u8]) -> u32,
    pub fill: fn(&[u8], u32, u32, &mut [u8]) -> u32,
    pub crossing: fn(&[u8], u32, u32, f64, &mut [u8]) -> u32,
    pub strip: fn(&[u8], u32, u32, u32, &mut [u8], &mut [u8], &mut [u8]) -> u32,
    pub cut: fn(&[u8], u32, u32, u32, u32, u32, &mut [u8], &mut [u8]) -> u32,
    pub combined: fn(u32, u32, u32, u32, u32, u32, u32, u32, u32, &mut [u8]) -> u32,
    pub setup_read: fn(&[u8], &mut [u8]) -> u32,
    pub setup_write: fn(u32, u32, u32, u32, &mut [u8], &mut [u8]) -> u32,
    pub join: fn(&[u8], &mut [u8], &mut [u8]) -> u32,
    pub narrow: fn(&[u8], &mut [u8], &mut [u8]) -> u32,
    pub layout: fn(&[u8], &mut [u8]) -> u32,
    pub text_place: fn(&[u8], &mut [u8]) -> u32,
    pub label_place: fn(&[u8], &[u8], &mut [u8]) -> u32,
    pub floats: fn(&[u8], u32, u32, &mut [f64]) -> u64,
    pub walked_floats: fn(&[u8], u32, u32, &mut [f64]) -> u64,
    pub steps: fn(&[u8], u32, u32, &mut [f64], &mut [f64], &mut [u8]) -> u32,
    pub step: fn(&[u8], u32, u32, u32, &mut [f64], &mut [u8]) -> usize,
    pub user_text: fn(&[u8], &mut [u8]) -> usize,
    pub label: fn(&[u8], &[u8], &mut [u8]) -> usize,
}

/// The calls of a copy of the law.
#[macro_export]
macro_rules! calls_of {
    ($module:path) => {{
        use $module::{calls, combined, crossing, join, narrow, places, setup, strip, tested};
        $crate::calls::Calls {
            open: calls::open,
            point: calls::point,
            fill: calls::fill,
            crossing: crossing::crossing,
            strip: strip::strip,
            cut: calls::cut,
            combined: combined::combined,
            setup_read: setup::read_line,
            setup_write: setup::write_line,
            join: join::join,
            narrow: narrow::narrow,
            layout: places::layout,
            text_place: places::text_place,
            label_place: places::label_place,
            floats: tested::floats,
            walked_floats: tested::walked_floats,
            steps: tested::steps,
            step: tested::step,
            user_text: tested::user_text,
            label: tested::label,
        }
    }};
}

/// The independent implementation.
pub const LAW: Calls = calls_of!(crate::law);

impl Calls {
    pub fn reply(&self, request: &Request) -> Reply {
        let mut reply = request.as_lent();
        reply.number = match self.of_host(request, &mut reply) {
            Some(number) => number.into(),
            None => self.of_tests(request, &mut reply),
        };
        reply
    }

    /// What a call of the C host returns; nothing for a test call.
    fn of_host(&self, request: &Request, reply: &mut Reply) -> Option<u32> {
        let Request { call, block, fallback, .. } = request;
        let Reply { out, answer, least, greatest, .. } = reply;
        let number = match *call {
            Call::Open => (self.open)(block, answer),
            Call::Point { array, segment, point } => {
                (self.point)(block, array, segment, point, answer)
            }
            Call::Fill { array, segment } => (self.fill)(block, array, segment, answer),
            Call::Crossing { array, segment, level } => {
                (self.crossing)(block, array, segment, f64::from_bits(level), answer)
            }
            Call::Strip { array, segment, columns } => {
                (self.strip)(block, array, segment, columns, least, greatest, answer)
            }
            Call::Cut { setup: Setup { sp, np, fp, sn }, order } => {
                (self.cut)(block, sp, np, fp, sn, order, out, answer)
            }
            Call::Combined { a, b: Setup { sp, np, fp, sn }, count } => {
                (self.combined)(a.sp, a.np, a.fp, a.sn, sp, np, fp, sn, count, answer)
            }
            Call::SetupRead => (self.setup_read)(block, answer),
            Call::SetupWrite { setup: Setup { sp, np, fp, sn } } => {
                (self.setup_write)(sp, np, fp, sn, out, answer)
            }
            Call::Join => (self.join)(block, out, answer),
            Call::Narrow => (self.narrow)(block, out, answer),
            Call::Layout => (self.layout)(block, answer),
            Call::TextPlace => (self.text_place)(block, answer),
            Call::LabelPlace { .. } => (self.label_place)(block, fallback, answer),
            _ => return None,
        };
        Some(number)
    }

    /// What a test call returns.
    fn of_tests(&self, request: &Request, reply: &mut Reply) -> u64 {
        let Request { call, block, fallback, .. } = request;
        let Reply { out, answer, marks, .. } = reply;
        match *call {
            Call::Floats { array, segment } => {
                with_floats(answer, |floats| (self.floats)(block, array, segment, floats))
            }
            Call::WalkedFloats { array, segment } => {
                with_floats(answer, |floats| (self.walked_floats)(block, array, segment, floats))
            }
            Call::Walk { array, segment } => with_floats(out, |values| {
                with_floats(answer, |times| {
                    (self.steps)(block, array, segment, values, times, marks).into()
                })
            }),
            Call::Step { array, segment, k } => with_floats(answer, |point| {
                (self.step)(block, array, segment, k, point, marks) as u64
            }),
            Call::UserText => (self.user_text)(block, answer) as u64,
            Call::Label { .. } => (self.label)(block, fallback, answer) as u64,
            _ => unreachable!("{call} is a call of the C host"),
        }
    }
}

/// Lends bytes as the floats that they are.
fn with_floats(bytes: &mut [u8], ask: impl FnOnce(&mut [f64]) -> u64) -> u64 {
    let float = |bytes: &[u8]| f64::from_le_bytes(bytes.try_into().expect("eight bytes"));
    let mut floats: Vec<f64> = bytes.chunks(8).map(float).collect();
    let number = ask(&mut floats);
    for (place, float) in bytes.chunks_mut(8).zip(floats) {
        place.copy_from_slice(&float.to_le_bytes());
    }
    number
}

impl Core for Calls {
    /// A wrong version may index beyond a slice and panic: that is no reply.
    fn ask(&mut self, request: &Request) -> Result<Reply, String> {
        catch_unwind(AssertUnwindSafe(|| self.reply(request)))
            .map_err(|_| "it panicked".to_string())
    }
}
