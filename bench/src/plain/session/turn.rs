//! Whose turn it is: "Messages alternate by turn."

use super::phase::Phase::{self, *};
use crate::plain::Side::{self, Client, Server};

/// Who is to send the next message; none behind the last. ErrorResponse aside, which comes at the
/// client's turn too.
pub fn turn(phase: Phase) -> Option<Side> {
    match phase {
        Fresh | ParametersAsked | PasswordAsked | Outside | Inside | LongText | ItemOver
        | ResultOver | InFile => Some(Client),
        StartUpSent | ParametersSent | PasswordSent | TimeAskedOutside | SettingOutside
        | ResettingOutside | BeginSent | TimeAskedInside | SettingInside | ResettingInside
        | CommitSent | RollbackSent | StatementSent | Updating | ItemDue | InItem | PastResult
        | FileSent | FileFailed | CloseSentOutside | CloseSentInside => Some(Server),
        Closed => None,
    }
}
