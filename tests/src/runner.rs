//! The library at the other end of a pipe: starts the runner and speaks its protocol, which
//! runner.c describes.

use std::io::{Read, Write};
use std::os::unix::process::ExitStatusExt;
use std::process::{Child, ChildStdin, ChildStdout, Command, Stdio};
use std::sync::atomic::{AtomicU64, Ordering};
use std::sync::{Arc, Mutex, Weak};
use std::thread;
use std::time::{Duration, Instant};

use crate::law::cut::Setup;
use crate::request::{Call, Core, Reply, Request};

/// How many numbers a request has for its call; those that the call does not take are 0.
const NUMBERS: usize = 9;

const SLICES: [&str; 7] = ["block", "fallback", "out", "answer", "marks", "least", "greatest"];

/// The kind of call that tries the runner itself, and what the slices hold then.
const PROBE: u32 = 0;
const PROBED: Lent = [&[1], &[2], &[3], &[4], &[5], &[6], &[7]];
/// Which byte such a call touches: the one before the slice, the one behind it, or its last.
const BEFORE: u32 = 0;
const BEHIND: u32 = 1;
const LAST: u32 = 2;

/// Memory that cannot be touched comes in pages; no machine has larger ones than this.
pub const PAGE: usize = 65_536;

/// The bytes of the slices, in that order.
type Lent<'a> = [&'a [u8]; SLICES.len()];

/// A call that takes longer is taken for one that never ends.
const LONGEST_CALL: Duration = Duration::from_secs(120);

pub struct Runner {
    child: Arc<Mutex<Child>>,
    input: ChildStdin,
    output: ChildStdout,
    /// Odd while a call is under way.
    steps: Arc<AtomicU64>,
}

impl Runner {
    /// Starts the runner by its command line.
    pub fn start(command: &[String]) -> Result<Runner, String> {
        Runner::start_with(command, Stdio::inherit())
    }

    fn start_with(command: &[String], messages: Stdio) -> Result<Runner, String> {
        let (program, arguments) = command.split_first().ok_or("no runner is named")?;
        let mut child = Command::new(program)
            .args(arguments)
            .stdin(Stdio::piped())
            .stdout(Stdio::piped())
            .stderr(messages)
            .spawn()
            .map_err(|error| format!("{program} does not start: {error}"))?;
        let input = child.stdin.take().ok_or("the runner has no input")?;
        let output = child.stdout.take().ok_or("the runner has no output")?;
        let child = Arc::new(Mutex::new(child));
        let steps = Arc::new(AtomicU64::new(0));
        watch(Arc::downgrade(&child), steps.clone());
        Ok(Runner { child, input, output, steps })
    }

    /// Tries whether the runner finds what it is there to find: each slice with a byte changed
    /// before it, and each with the byte behind it touched, which must end the runner; and a block
    /// with its last byte touched, which must end the runner where that cannot be read.
    pub fn probe(command: &[String]) -> Result<(), String> {
        let mut runner = Runner::start(command)?;
        for (slice, name) in SLICES.iter().enumerate() {
            let reply = runner.exchange(PROBE, &[slice as u32, BEFORE], 0, PROBED)?;
            if reply.spoiled != [*name] {
                return Err(format!("the runner does not see a change before {name}"));
            }
            Runner::ended(command, &[slice as u32, BEHIND], 0, PROBED)?;
        }
        let page = [0; PAGE];
        let mut slices = PROBED;
        slices[0] = &page;
        runner.exchange(PROBE, &[0, LAST], 0, slices)?;
        Runner::ended(command, &[0, LAST], PAGE, slices)
    }

    /// Tries whether touching a byte that cannot be touched ends the runner.
    fn ended(
        command: &[String],
        numbers: &[u32],
        unread: usize,
        slices: Lent,
    ) -> Result<(), String> {
        let mut victim = Runner::start_with(command, Stdio::null())?;
        match victim.exchange(PROBE, numbers, unread, slices) {
            Err(why) if why.contains("signal") => Ok(()),
            Err(why) => Err(why),
            Ok(_) => Err(format!("a byte about {} can be touched", SLICES[numbers[0] as usize])),
        }
    }

    fn exchange(
        &mut self,
        kind: u32,
        numbers: &[u32],
        unread: usize,
        slices: Lent,
    ) -> Result<Reply, String> {
        self.steps.fetch_add(1, Ordering::SeqCst);
        let reply = self.write(kind, numbers, unread, slices).and_then(|()| self.read(slices));
        self.steps.fetch_add(1, Ordering::SeqCst);
        reply.map_err(|error| self.end(error))
    }

    fn write(
        &mut self,
        kind: u32,
        numbers: &[u32],
        unread: usize,
        slices: Lent,
    ) -> std::io::Result<()> {
        let mut head = [&[kind], numbers].concat();
        head.resize(1 + NUMBERS, 0);
        head.push(unread as u32);
        head.extend(slices.map(|slice| slice.len() as u32));
        let mut bytes: Vec<u8> = head.into_iter().flat_map(u32::to_le_bytes).collect();
        slices.iter().for_each(|slice| bytes.extend(*slice));
        self.input.write_all(&bytes)
    }

    fn read(&mut self, slices: Lent) -> std::io::Result<Reply> {
        let mut bytes = vec![0; 12 + slices.iter().map(|slice| slice.len()).sum::<usize>()];
        self.output.read_exact(&mut bytes)?;
        let mut rest = &bytes[..];
        let mut next = |length: usize| {
            let (part, behind) = rest.split_at(length);
            rest = behind;
            part.to_vec()
        };
        let number = u64::from_le_bytes(next(8).try_into().expect("eight bytes"));
        let lost = u32::from_le_bytes(next(4).try_into().expect("four bytes"));
        let [block, fallback, out, answer, marks, least, greatest] =
            slices.map(|slice| next(slice.len()));
        let spoiled = SLICES.into_iter().enumerate().filter(|(bit, _)| lost >> bit & 1 == 1);
        let spoiled = spoiled.map(|(_, name)| name).collect();
        Ok(Reply { number, block, fallback, out, answer, marks, least, greatest, spoiled })
    }

    /// Why there is no reply: how the runner ended.
    fn end(&mut self, error: std::io::Error) -> String {
        let mut child = self.child.lock().expect("no thread panics with the runner");
        match child.wait() {
            Ok(status) => match status.signal() {
                Some(9) => format!("no reply came within {} s", LONGEST_CALL.as_secs()),
                Some(signal) => format!("the runner was ended by signal {signal}"),
                None => format!("the runner ended with {status} ({error})"),
            },
            Err(why) => format!("the runner is lost: {why} ({error})"),
        }
    }
}

impl Core for Runner {
    fn ask(&mut self, request: &Request) -> Result<Reply, String> {
        let (kind, numbers) = match request.call {
            Call::Open => (1, vec![]),
            Call::Point { array, segment, point } => (2, vec![array, segment, point]),
            Call::Fill { array, segment } => (3, vec![array, segment]),
            Call::Cut { setup: Setup { sp, np, fp, sn }, order } => {
                (4, vec![sp, np, fp, sn, order])
            }
            Call::Floats { array, segment } => (5, vec![array, segment]),
            Call::Walk { array, segment } => (6, vec![array, segment]),
            Call::Step { array, segment, k } => (7, vec![array, segment, k]),
            Call::UserText => (8, vec![]),
            Call::Label { .. } => (9, vec![]),
            Call::Layout => (10, vec![]),
            Call::TextPlace => (11, vec![]),
            Call::LabelPlace { .. } => (12, vec![]),
            Call::WalkedFloats { array, segment } => (13, vec![array, segment]),
            Call::Join => (14, vec![]),
            Call::Combined { a, b, count } => {
                (15, vec![a.sp, a.np, a.fp, a.sn, b.sp, b.np, b.fp, b.sn, count])
            }
            Call::Narrow => (16, vec![]),
            Call::Crossing { array, segment, level } => {
                (17, vec![array, segment, level as u32, (level >> 32) as u32])
            }
            Call::Strip { array, segment, columns } => (18, vec![array, segment, columns]),
            Call::SetupRead => (19, vec![]),
            Call::SetupWrite { setup: Setup { sp, np, fp, sn } } => (20, vec![sp, np, fp, sn]),
        };
        let Request { block, unread, fallback, out, answer, marks, least, greatest, .. } = request;
        let slices: Lent = [block, fallback, out, answer, marks, least, greatest];
        self.exchange(kind, &numbers, *unread, slices)
    }
}

impl Drop for Runner {
    /// Ends the runner where it has not ended by itself.
    fn drop(&mut self) {
        if let Ok(mut child) = self.child.lock() {
            let _ = child.kill();
            let _ = child.wait();
        }
    }
}

/// Ends a runner whose call takes too long, so that the reader of its output goes on.
fn watch(child: Weak<Mutex<Child>>, steps: Arc<AtomicU64>) {
    thread::spawn(move || {
        let (mut step, mut since) = (0, Instant::now());
        while let Some(child) = child.upgrade() {
            let now = steps.load(Ordering::SeqCst);
            if now != step {
                (step, since) = (now, Instant::now());
            }
            if step % 2 == 1 && since.elapsed() > LONGEST_CALL {
                if let Ok(mut child) = child.lock() {
                    let _ = child.kill();
                }
            }
            drop(child);
            thread::sleep(Duration::from_millis(500));
        }
    });
}
