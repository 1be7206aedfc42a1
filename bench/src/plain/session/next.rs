//! The phase that a message leads to, or none where no conversation goes on with it. The functions
//! follow the parts of document 01's grammar, as 02 amends it. A message's side has been judged by
//! the reader, and no phase takes messages of both, ErrorResponse aside.

use super::error::after_error;
use super::phase::Phase::{self, *};
use crate::plain::instruction::*;

/// The options came with this version.
const OPTIONS: u8 = 3;
/// DebugInfo did, and a bulk load of more than one file.
const DEBUG_AND_FILES: u8 = 2;
/// ItemStart did.
const TYPED_ITEMS: u8 = 4;

#[inline(always)]
pub fn next(phase: Phase, version: u8, instruction: u32) -> Option<Phase> {
    if instruction == ERROR_RESPONSE {
        return after_error(phase);
    }
    match phase {
        Fresh | StartUpSent | ParametersAsked | ParametersSent | PasswordAsked | PasswordSent => {
            start(phase, instruction)
        }
        Outside => outside(version, instruction),
        Inside => inside(version, instruction),
        TimeAskedOutside | SettingOutside | ResettingOutside | TimeAskedInside | SettingInside
        | ResettingInside => side_answer(phase, instruction),
        BeginSent | CommitSent | RollbackSent => transaction_answer(phase, instruction),
        LongText => long_text(instruction),
        StatementSent => outcome(version, instruction),
        Updating => update(instruction),
        ItemDue | InItem | PastResult => delivery(phase, version, instruction),
        ItemOver => item_over(instruction),
        ResultOver => result_over(version, instruction),
        InFile => file(instruction),
        FileSent | FileFailed => file_answer(phase, version, instruction),
        CloseSentOutside | CloseSentInside => close_answer(phase, instruction),
        Closed => None,
    }
}

fn start(phase: Phase, instruction: u32) -> Option<Phase> {
    match (phase, instruction) {
        (Fresh, START_UP) => Some(StartUpSent),
        (StartUpSent, SEND_SESSION_PARAMETERS) => Some(ParametersAsked),
        (ParametersAsked, SESSION_PARAMETERS) => Some(ParametersSent),
        (ParametersSent, SEND_AUTH_PARAMETERS) => Some(PasswordAsked),
        (PasswordAsked, AUTHENTICATION_PARAMETERS) => Some(PasswordSent),
        (PasswordSent, AUTHENTICATION_OK) => Some(Outside),
        (PasswordSent, AUTHENTICATION_FAILED) => Some(Closed),
        _ => None,
    }
}

fn outside(version: u8, instruction: u32) -> Option<Phase> {
    match instruction {
        BEGIN => Some(BeginSent),
        SHOW_TIME => Some(TimeAskedOutside),
        SET_OPTIONS if version >= OPTIONS => Some(SettingOutside),
        RESET_OPTIONS if version >= OPTIONS => Some(ResettingOutside),
        CLOSE => Some(CloseSentOutside),
        _ => None,
    }
}

fn inside(version: u8, instruction: u32) -> Option<Phase> {
    match instruction {
        SHOW_TIME => Some(TimeAskedInside),
        SET_OPTIONS if version >= OPTIONS => Some(SettingInside),
        RESET_OPTIONS if version >= OPTIONS => Some(ResettingInside),
        _ => statement_or_end(instruction),
    }
}

/// All that the client may send inside but a side exchange: what gives a result up, too.
fn statement_or_end(instruction: u32) -> Option<Phase> {
    match instruction {
        EXECUTE => Some(StatementSent),
        EXECUTE_LONG => Some(LongText),
        COMMIT => Some(CommitSent),
        ROLLBACK => Some(RollbackSent),
        CLOSE => Some(CloseSentInside),
        _ => None,
    }
}

fn side_answer(phase: Phase, instruction: u32) -> Option<Phase> {
    match (phase, instruction) {
        (TimeAskedOutside, LAST_QUERY_TIME) => Some(Outside),
        (SettingOutside, SET_OPTIONS_OK) => Some(Outside),
        (ResettingOutside, RESET_OPTIONS_OK) => Some(Outside),
        (TimeAskedInside, LAST_QUERY_TIME) => Some(Inside),
        (SettingInside, SET_OPTIONS_OK) => Some(Inside),
        (ResettingInside, RESET_OPTIONS_OK) => Some(Inside),
        _ => None,
    }
}

fn transaction_answer(phase: Phase, instruction: u32) -> Option<Phase> {
    match (phase, instruction) {
        (BeginSent, BEGIN_OK) => Some(Inside),
        (BeginSent, BEGIN_FAILED) => Some(Outside),
        (CommitSent, COMMIT_OK | COMMIT_FAILED) => Some(Outside),
        (RollbackSent, ROLLBACK_OK) => Some(Outside),
        (RollbackSent, ROLLBACK_FAILED) => Some(Closed),
        _ => None,
    }
}

fn long_text(instruction: u32) -> Option<Phase> {
    match instruction {
        EXECUTE_LONG => Some(LongText),
        LONG_QUERY_END => Some(StatementSent),
        _ => None,
    }
}

fn outcome(version: u8, instruction: u32) -> Option<Phase> {
    match instruction {
        QUERY_SUCCEEDED => Some(ItemDue),
        QUERY_FAILED => Some(Inside),
        BULK_LOAD_FILE_NAME | BULK_LOAD_FROM_STREAM => Some(InFile),
        DEBUG_INFO if version < DEBUG_AND_FILES => None,
        _ => update(instruction),
    }
}

fn update(instruction: u32) -> Option<Phase> {
    match instruction {
        DEBUG_INFO => Some(Updating),
        UPDATE_SUCCEEDED | UPDATE_FAILED => Some(Inside),
        _ => None,
    }
}

fn delivery(phase: Phase, version: u8, instruction: u32) -> Option<Phase> {
    match (phase, instruction) {
        (ItemDue, ITEM_START) if version >= TYPED_ITEMS => Some(InItem),
        (ItemDue, ITEM_PART) if version < TYPED_ITEMS => Some(InItem),
        (InItem, ITEM_PART) => Some(InItem),
        (InItem, ITEM_END) => Some(ItemOver),
        (_, RESULT_END) => Some(ResultOver),
        (_, DEBUG_INFO) if version >= DEBUG_AND_FILES => Some(phase),
        _ => None,
    }
}

/// No side exchange as long as the result may go on.
fn item_over(instruction: u32) -> Option<Phase> {
    match instruction {
        GET_NEXT_ITEM => Some(ItemDue),
        _ => statement_or_end(instruction),
    }
}

fn result_over(version: u8, instruction: u32) -> Option<Phase> {
    match instruction {
        GET_NEXT_ITEM => Some(PastResult),
        _ => inside(version, instruction),
    }
}

fn file(instruction: u32) -> Option<Phase> {
    match instruction {
        BULK_LOAD_PORTION => Some(InFile),
        BULK_LOAD_END => Some(FileSent),
        BULK_LOAD_ERROR => Some(FileFailed),
        _ => None,
    }
}

fn file_answer(phase: Phase, version: u8, instruction: u32) -> Option<Phase> {
    match (phase, instruction) {
        (_, BULK_LOAD_FAILED) => Some(Inside),
        (FileSent, BULK_LOAD_SUCCEEDED) => Some(Inside),
        (FileSent, BULK_LOAD_FILE_NAME) if version >= DEBUG_AND_FILES => Some(InFile),
        _ => None,
    }
}

fn close_answer(phase: Phase, instruction: u32) -> Option<Phase> {
    match (phase, instruction) {
        (CloseSentOutside, CLOSE_OK) => Some(Closed),
        (CloseSentInside, ROLLBACK_BEFORE_CLOSE) => Some(Closed),
        _ => None,
    }
}
