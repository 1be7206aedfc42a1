//! The 46 instructions by document 01's names.

use core::fmt;

/// What a message is: its number in document 01's table.
///
/// Any number can stand here, so that every instruction can be asked for: one that the table lacks
/// is refused with 2. One is shown by its name, or by its number where it has none.
///
/// ```
/// use keddorimp::sedna::Instruction;
///
/// assert_eq!(Instruction(310).to_string(), "GetNextItem");
/// assert_eq!(Instruction(311).to_string(), "311");
/// ```
#[derive(Clone, Copy, Debug, PartialEq, Eq, PartialOrd, Ord, Hash)]
pub struct Instruction(pub u32);

macro_rules! instructions {
    ($($number:literal $constant:ident $name:literal $sender:literal;)*) => {
        impl Instruction {
            $(
                #[doc = concat!($name, ", sent by the ", $sender, ".")]
                pub const $constant: Self = Self($number);
            )*

            /// Document 01's name; none for a number that its table lacks.
            pub const fn name(self) -> Option<&'static str> {
                match self.0 {
                    $($number => Some($name),)*
                    _ => None,
                }
            }
        }
    };
}

instructions! {
    100 ERROR_RESPONSE "ErrorResponse" "server";
    110 START_UP "StartUp" "client";
    120 SESSION_PARAMETERS "SessionParameters" "client";
    130 AUTHENTICATION_PARAMETERS "AuthenticationParameters" "client";
    140 SEND_SESSION_PARAMETERS "SendSessionParameters" "server";
    150 SEND_AUTH_PARAMETERS "SendAuthParameters" "server";
    160 AUTHENTICATION_OK "AuthenticationOk" "server";
    170 AUTHENTICATION_FAILED "AuthenticationFailed" "server";
    210 BEGIN "Begin" "client";
    220 COMMIT "Commit" "client";
    225 ROLLBACK "Rollback" "client";
    230 BEGIN_OK "BeginOk" "server";
    240 BEGIN_FAILED "BeginFailed" "server";
    250 COMMIT_OK "CommitOk" "server";
    255 ROLLBACK_OK "RollbackOk" "server";
    260 COMMIT_FAILED "CommitFailed" "server";
    265 ROLLBACK_FAILED "RollbackFailed" "server";
    300 EXECUTE "Execute" "client";
    301 EXECUTE_LONG "ExecuteLong" "client";
    302 LONG_QUERY_END "LongQueryEnd" "client";
    310 GET_NEXT_ITEM "GetNextItem" "client";
    320 QUERY_SUCCEEDED "QuerySucceeded" "server";
    325 DEBUG_INFO "DebugInfo" "server";
    330 QUERY_FAILED "QueryFailed" "server";
    340 UPDATE_SUCCEEDED "UpdateSucceeded" "server";
    350 UPDATE_FAILED "UpdateFailed" "server";
    355 ITEM_START "ItemStart" "server";
    360 ITEM_PART "ItemPart" "server";
    370 ITEM_END "ItemEnd" "server";
    375 RESULT_END "ResultEnd" "server";
    400 BULK_LOAD_ERROR "BulkLoadError" "client";
    410 BULK_LOAD_PORTION "BulkLoadPortion" "client";
    420 BULK_LOAD_END "BulkLoadEnd" "client";
    430 BULK_LOAD_FILE_NAME "BulkLoadFileName" "server";
    431 BULK_LOAD_FROM_STREAM "BulkLoadFromStream" "server";
    440 BULK_LOAD_SUCCEEDED "BulkLoadSucceeded" "server";
    450 BULK_LOAD_FAILED "BulkLoadFailed" "server";
    451 SHOW_TIME "ShowTime" "client";
    452 LAST_QUERY_TIME "LastQueryTime" "server";
    500 CLOSE "Close" "client";
    510 CLOSE_OK "CloseOk" "server";
    520 ROLLBACK_BEFORE_CLOSE "RollbackBeforeClose" "server";
    530 SET_OPTIONS "SetOptions" "client";
    540 SET_OPTIONS_OK "SetOptionsOk" "server";
    550 RESET_OPTIONS "ResetOptions" "client";
    560 RESET_OPTIONS_OK "ResetOptionsOk" "server";
}

impl fmt::Display for Instruction {
    fn fmt(&self, f: &mut fmt::Formatter<'_>) -> fmt::Result {
        match self.name() {
            Some(name) => f.pad(name),
            None => self.0.fmt(f),
        }
    }
}
