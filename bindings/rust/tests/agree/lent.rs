//! Lent memory: filled with a pattern, so that every byte that was stored shows, also behind it.

use keddorimp::Refusal;
use std::sync::LazyLock;

/// Bytes behind what is lent, which nobody may touch.
pub const GUARD: usize = 64;

static PATTERN: LazyLock<Vec<u8>> =
    LazyLock::new(|| (0..1 << 18).map(|at: usize| (at * 31 + at / 256 + 7) as u8).collect());

/// The pattern in `room` bytes and the guard behind them.
pub fn fill(memory: &mut Vec<u8>, room: usize) {
    memory.clear();
    memory.extend_from_slice(&PATTERN[..room + GUARD]);
}

/// Whether `stored` stands at the front, and the pattern in all that is behind it.
pub fn holds(memory: &[u8], stored: &[u8]) -> bool {
    let behind = stored.len()..memory.len();
    memory.starts_with(stored) && memory[behind.clone()] == PATTERN[behind]
}

/// An output for each of the two writers.
#[derive(Default)]
pub struct Outputs {
    ours: Vec<u8>,
    plain: Vec<u8>,
}

impl Outputs {
    /// A call of both with `room` bytes of output lent; the answer is that of both.
    pub fn compare(
        &mut self,
        room: usize,
        ours: impl for<'o> FnOnce(&'o mut [u8]) -> Result<&'o [u8], Refusal>,
        plain: impl FnOnce(&mut [u8]) -> Result<usize, u8>,
        what: impl Fn() -> String,
    ) -> Result<usize, u8> {
        fill(&mut self.ours, room);
        fill(&mut self.plain, room);
        let front = self.ours.as_ptr();
        let written = ours(&mut self.ours[..room]).map_err(Refusal::number);
        assert!(written.is_err() || written.is_ok_and(|out| out.as_ptr() == front), "{}", what());
        let written = written.map(<[u8]>::len);
        let expected = plain(&mut self.plain[..room]);
        assert_eq!(written, expected, "into {room} bytes: {}", what());
        let stored = &self.plain[..expected.unwrap_or(0)];
        assert!(holds(&self.ours, stored), "into {room} bytes: {}", what());
        expected
    }

    /// What was written last.
    pub fn written(&self, count: usize) -> &[u8] {
        &self.ours[..count]
    }
}

pub fn hex(bytes: &[u8]) -> String {
    bytes.iter().map(|byte| format!("{byte:02X}")).collect()
}
