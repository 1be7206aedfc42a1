//! The kinds of request.

use crate::shown::pad;
use core::fmt;

/// What a request is: its first byte.
///
/// A COMMAND has no byte of its own, since its text starts with any from 20 to FE: each of these
/// means COMMAND, and a request that was read has [`Kind::COMMAND`]. Other bytes that document 01
/// does not list can stand here too, and are refused with 2. A kind is shown by its name, or by its
/// byte where it has none.
///
/// ```
/// use keddorimp::basex::Kind;
///
/// assert_eq!(Kind::PUT_BINARY.to_string(), "PUTBINARY");
/// assert_eq!(Kind(b'x').name(), Some("COMMAND"));
/// assert_eq!((Kind(0x0A).name(), Kind(0x0A).to_string()), (None, "0x0A".to_string()));
/// ```
#[derive(Clone, Copy, Debug, PartialEq, Eq, PartialOrd, Ord, Hash)]
pub struct Kind(pub u8);

macro_rules! kinds {
    ($($byte:literal $constant:ident $name:literal $strings:literal;)*) => {
        impl Kind {
            $(
                #[doc = concat!($name, ": ", $strings, ".")]
                pub const $constant: Self = Self($byte);
            )*

            /// Document 01's name; none for a byte that starts no request.
            pub const fn name(self) -> Option<&'static str> {
                match self.0 {
                    $($byte => Some($name),)*
                    _ if self.is_command() => Some("COMMAND"),
                    _ => None,
                }
            }
        }
    };
}

kinds! {
    0x00 QUERY "QUERY" "one string";
    0x02 CLOSE "CLOSE" "one string";
    0x03 BIND "BIND" "four strings";
    0x04 RESULTS "RESULTS" "one string";
    0x05 EXECUTE "EXECUTE" "one string";
    0x06 INFO "INFO" "one string";
    0x07 OPTIONS "OPTIONS" "one string";
    0x08 CREATE "CREATE" "two strings";
    0x09 ADD "ADD" "two strings";
    0x0C PUT "PUT" "two strings";
    0x0D PUT_BINARY "PUTBINARY" "two strings";
    0x0E CONTEXT "CONTEXT" "three strings";
    0x1E UPDATING "UPDATING" "one string";
    0x1F FULL "FULL" "one string";
    0x20 COMMAND "COMMAND" "one string, the command itself";
}

impl Kind {
    /// Whether this byte means COMMAND.
    pub const fn is_command(self) -> bool {
        matches!(self.0, 0x20..=0xFE)
    }
}

impl fmt::Display for Kind {
    fn fmt(&self, f: &mut fmt::Formatter<'_>) -> fmt::Result {
        match self.name() {
            Some(name) => f.pad(name),
            None => pad(f, format_args!("{:#04X}", self.0)),
        }
    }
}
