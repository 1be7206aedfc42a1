//! Where a conversation can stand.

#[derive(Clone, Copy, Debug, PartialEq, Eq, PartialOrd, Ord)]
#[repr(u8)]
pub enum Phase {
    Fresh,
    StartUpSent,
    ParametersAsked,
    ParametersSent,
    PasswordAsked,
    PasswordSent,
    /// No transaction is open, and the client has the turn.
    Outside,
    TimeAskedOutside,
    SettingOutside,
    ResettingOutside,
    BeginSent,
    /// A transaction is open, and the client has the turn.
    Inside,
    TimeAskedInside,
    SettingInside,
    ResettingInside,
    CommitSent,
    RollbackSent,
    /// After an ExecuteLong.
    LongText,
    StatementSent,
    /// After a statement's DebugInfo: only an update goes on from there.
    Updating,
    /// In a delivery, ahead of its item.
    ItemDue,
    InItem,
    ItemOver,
    ResultOver,
    /// After a GetNextItem that comes behind the last item.
    PastResult,
    /// After a file's name, however many portions have come.
    InFile,
    FileSent,
    FileFailed,
    CloseSentOutside,
    CloseSentInside,
    Closed,
}
