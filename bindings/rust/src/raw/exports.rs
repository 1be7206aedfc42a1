//! The functions that the four archives export, each declared once: here, for this crate and for
//! `bench/`, which calls them without the wrappers. A slice passes as a pointer and a length.

// `libsedna_c.a`: reading, writing and the session.
#[rustfmt::skip]
extern "C" {
    pub fn kdr_read(
        side: u8, bytes: *const u8, len: usize, fields: *mut u64, fields_len: usize,
    ) -> u64;
    pub fn kdr_fresh(session: *mut u8, session_len: usize) -> u64;
    pub fn kdr_step(
        session: *mut u8, session_len: usize, side: u8, bytes: *const u8, len: usize,
        fields: *mut u64, fields_len: usize,
    ) -> u64;
    pub fn kdr_closed(session: *const u8, session_len: usize) -> u8;
    pub fn kdr_turn(session: *const u8, session_len: usize) -> u8;
    pub fn kdr_option(
        bytes: *const u8, bytes_len: usize, start: usize, len: usize, k: usize,
        fields: *mut u64, fields_len: usize,
    ) -> u64;
    pub fn kdr_write_empty(out: *mut u8, out_len: usize, instruction: u32) -> u64;
    pub fn kdr_write_session(
        out: *mut u8, out_len: usize, instruction: u32, major: u8, minor: u8,
        user: *const u8, user_len: usize, database: *const u8, database_len: usize,
    ) -> u64;
    pub fn kdr_write_text(
        out: *mut u8, out_len: usize, instruction: u32, text: *const u8, text_len: usize,
    ) -> u64;
    pub fn kdr_write_statement(
        out: *mut u8, out_len: usize, instruction: u32, format: u8,
        text: *const u8, text_len: usize,
    ) -> u64;
    pub fn kdr_write_coded(
        out: *mut u8, out_len: usize, instruction: u32, code: u32,
        text: *const u8, text_len: usize,
    ) -> u64;
    pub fn kdr_write_options(
        out: *mut u8, out_len: usize, instruction: u32, ids: *const u32, ids_len: usize,
        lengths: *const usize, lengths_len: usize, values: *const u8, values_len: usize,
    ) -> u64;
    pub fn kdr_write_item(
        out: *mut u8, out_len: usize, instruction: u32, class: u8, kind: u8,
        part: *const u8, part_len: usize,
    ) -> u64;
    pub fn kdr_write_item_url(
        out: *mut u8, out_len: usize, instruction: u32, class: u8, kind: u8,
        url: *const u8, url_len: usize, part: *const u8, part_len: usize,
    ) -> u64;
}

// `libparts_c.a`: cutting and joining.
#[rustfmt::skip]
extern "C" {
    pub fn kdr_statement_parts(n: usize) -> u64;
    pub fn kdr_item_parts(n: usize) -> u64;
    pub fn kdr_typed_item_parts(n: usize) -> u64;
    pub fn kdr_typed_item_url_parts(n: usize, url: usize) -> u64;
    pub fn kdr_write_statement_part(
        out: *mut u8, out_len: usize, format: u8, text: *const u8, text_len: usize, k: usize,
    ) -> u64;
    pub fn kdr_write_item_part(
        out: *mut u8, out_len: usize, text: *const u8, text_len: usize, k: usize,
    ) -> u64;
    pub fn kdr_write_typed_item_part(
        out: *mut u8, out_len: usize, class: u8, kind: u8,
        text: *const u8, text_len: usize, k: usize,
    ) -> u64;
    pub fn kdr_write_typed_item_url_part(
        out: *mut u8, out_len: usize, class: u8, kind: u8, url: *const u8, url_len: usize,
        text: *const u8, text_len: usize, k: usize,
    ) -> u64;
    pub fn kdr_open(assembly: *mut u64, assembly_len: usize, what: u64) -> u64;
    pub fn kdr_join(
        assembly: *mut u64, assembly_len: usize, buffer: *mut u8, buffer_len: usize,
        side: u8, bytes: *const u8, len: usize, told: *mut u64, told_len: usize,
    ) -> u64;
}

// `libvalue_c.a`: typed values and the order of instants.
#[rustfmt::skip]
extern "C" {
    pub fn kdr_value(
        class: u8, kind: u8, text: *const u8, text_len: usize,
        numbers: *mut i64, numbers_len: usize, real: *mut f64, real_len: usize,
    ) -> u64;
    pub fn kdr_compare(
        a_seconds: i64, a_nanoseconds: u32, b_seconds: i64, b_nanoseconds: u32,
    ) -> i32;
}

// `libbasex_c.a`: strings, requests and responses.
#[rustfmt::skip]
extern "C" {
    pub fn kdr_basex_string_len(text: *const u8, text_len: usize) -> u64;
    pub fn kdr_basex_write_string(
        out: *mut u8, out_len: usize, at: usize, text: *const u8, text_len: usize,
    ) -> u64;
    pub fn kdr_basex_string_at(
        bytes: *const u8, len: usize, at: usize, told: *mut u64, told_len: usize,
    ) -> u64;
    pub fn kdr_basex_decode(
        bytes: *const u8, len: usize, at: usize, out: *mut u8, out_len: usize, to: usize,
        told: *mut u64, told_len: usize,
    ) -> u64;
    pub fn kdr_basex_read_request(
        bytes: *const u8, len: usize, out: *mut u8, out_len: usize,
        told: *mut u64, told_len: usize,
    ) -> u64;
    pub fn kdr_basex_write_request(
        out: *mut u8, out_len: usize, kind: u8, first: *const u8, first_len: usize,
        second: *const u8, second_len: usize, third: *const u8, third_len: usize,
        fourth: *const u8, fourth_len: usize,
    ) -> u64;
    pub fn kdr_basex_read_response(
        kind: u8, bytes: *const u8, len: usize, out: *mut u8, out_len: usize,
        told: *mut u64, told_len: usize,
    ) -> u64;
    pub fn kdr_basex_error(
        kind: u8, response: *const u64, response_len: usize, place: *mut u64, place_len: usize,
    ) -> u64;
    pub fn kdr_basex_item(
        kind: u8, bytes: *const u8, len: usize, at: usize, told: *mut u64, told_len: usize,
    ) -> u64;
    pub fn kdr_basex_write_item(
        out: *mut u8, out_len: usize, at: usize, kind: u8, id: u8, uri: *const u8, uri_len: usize,
        text: *const u8, text_len: usize,
    ) -> u64;
    pub fn kdr_basex_write_end(
        out: *mut u8, out_len: usize, at: usize, kind: u8, first: *const u8, first_len: usize,
        second: *const u8, second_len: usize, status: u8, error: *const u8, error_len: usize,
    ) -> u64;
}
