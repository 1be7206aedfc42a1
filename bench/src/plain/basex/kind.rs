//! The fifteen kinds of request, by their first byte, and what the response to each is made of.

pub const RESULTS: u8 = 0x04;
pub const FULL: u8 = 0x1F;
/// The lowest first byte of a command, by which every command is told.
pub const COMMAND: u8 = 0x20;

/// "First byte of a request and its strings"; none for "other first bytes".
#[inline(always)]
pub fn strings(kind: u8) -> Option<usize> {
    Some(match kind {
        // QUERY, CLOSE, RESULTS, EXECUTE, INFO, OPTIONS, UPDATING, FULL
        0x00 | 0x02 | RESULTS | 0x05..=0x07 | 0x1E | FULL => 1,
        // BIND
        0x03 => 4,
        // CREATE, ADD, PUT, PUTBINARY
        0x08 | 0x09 | 0x0C | 0x0D => 2,
        // CONTEXT
        0x0E => 3,
        COMMAND..=0xFE => 1,
        _ => return None,
    })
}

/// "20 to FE starts a COMMAND"
#[inline(always)]
pub fn is_command(kind: u8) -> bool {
    (COMMAND..=0xFE).contains(&kind)
}

/// What a response is made of.
#[derive(Clone, Copy, Debug, PartialEq, Eq)]
pub enum Form {
    /// "COMMAND: two strings, status."
    Command,
    /// "CREATE, ADD, PUT, PUTBINARY: one string, status"
    Stored,
    /// "QUERY and the query commands: one string, then 00, or 01 and an error string."
    Query,
    /// "RESULTS, FULL: items, then 00" in place of the one string.
    Items { full: bool },
}

impl Form {
    /// By the first byte of the request.
    #[inline(always)]
    pub fn of(kind: u8) -> Option<Self> {
        Some(match kind {
            RESULTS => Self::Items { full: false },
            FULL => Self::Items { full: true },
            0x08 | 0x09 | 0x0C | 0x0D => Self::Stored,
            0x00 | 0x02 | 0x03 | 0x05..=0x07 | 0x0E | 0x1E => Self::Query,
            COMMAND..=0xFE => Self::Command,
            _ => return None,
        })
    }

    /// How many strings stand ahead of the status.
    #[inline(always)]
    pub fn texts(self) -> usize {
        match self {
            Self::Command => 2,
            Self::Stored | Self::Query => 1,
            Self::Items { .. } => 0,
        }
    }

    /// Whether an error string stands behind this status.
    #[inline(always)]
    pub fn has_error(self, status: u8) -> bool {
        status == 1 && matches!(self, Self::Query | Self::Items { .. })
    }
}
