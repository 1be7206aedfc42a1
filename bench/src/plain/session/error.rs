//! ErrorResponse, which may come at nearly every moment.

use super::phase::Phase::{self, *};

/// It ends the conversation at the client's turn, in the start and after Close; elsewhere the
/// exchange or the statement, and inside or outside stays as it was.
pub fn after_error(phase: Phase) -> Option<Phase> {
    match phase {
        Fresh | Closed => None,
        BeginSent | TimeAskedOutside | SettingOutside | ResettingOutside => Some(Outside),
        TimeAskedInside | SettingInside | ResettingInside | CommitSent | RollbackSent => {
            Some(Inside)
        }
        StatementSent | Updating | ItemDue | InItem | PastResult | FileSent | FileFailed => {
            Some(Inside)
        }
        StartUpSent | ParametersAsked | ParametersSent | PasswordAsked | PasswordSent | Outside
        | Inside | LongText | ItemOver | ResultOver | InFile | CloseSentOutside
        | CloseSentInside => Some(Closed),
    }
}
