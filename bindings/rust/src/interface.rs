//! What include/tera.h declares. `bindings/interface.py --write` writes this file.
#![allow(dead_code)] // not all of it is called

/// A session of the library.
#[repr(C)]
#[derive(Debug)]
pub(crate) struct Held {
    _private: [u8; 0],
}

pub(crate) const VERSION: u32 = 512;
pub(crate) const STACK: u32 = 98304;
pub(crate) const DONE: u8 = 0;
pub(crate) const WANTED: u8 = 1;
pub(crate) const BAD: u8 = 2;
pub(crate) const SMALL: u8 = 3;
pub(crate) const NO_MEMORY: u8 = 4;
pub(crate) const NO_REPLY: u8 = 5;
pub(crate) const CLOSED: u8 = 6;
pub(crate) const OPEN: u8 = 7;
pub(crate) const MISSING: u8 = 8;
pub(crate) const REFUSED: u8 = 9;

extern "C" {
    pub(crate) fn tera_version() -> u32;
    pub(crate) fn tera_open(session: *mut *mut Held) -> u8;
    pub(crate) fn tera_open_seeded(session: *mut *mut Held, seed: *const u8) -> u8;
    pub(crate) fn tera_line(
        session: *mut *mut Held,
        line: *const u8,
        line_len: usize,
        reply_len: *mut usize,
    ) -> u8;
    pub(crate) fn tera_reply(
        session: *mut *mut Held,
        room: *mut u8,
        room_len: usize,
        reply_len: *mut usize,
    ) -> u8;
    pub(crate) fn tera_close(session: *mut *mut Held);
    pub(crate) fn tera_set(
        session: *mut *mut Held,
        name: *const u8,
        name_len: usize,
        literal: *const u8,
        literal_len: usize,
    ) -> u8;
    pub(crate) fn tera_set_text(
        session: *mut *mut Held,
        name: *const u8,
        name_len: usize,
        text: *const u8,
        text_len: usize,
        safe: u8,
    ) -> u8;
    pub(crate) fn tera_set_json(
        session: *mut *mut Held,
        name: *const u8,
        name_len: usize,
        json: *const u8,
        json_len: usize,
    ) -> u8;
    pub(crate) fn tera_get(
        session: *mut *mut Held,
        name: *const u8,
        name_len: usize,
        room: *mut u8,
        room_len: usize,
        len: *mut usize,
    ) -> u8;
    pub(crate) fn tera_get_json(
        session: *mut *mut Held,
        name: *const u8,
        name_len: usize,
        room: *mut u8,
        room_len: usize,
        len: *mut usize,
    ) -> u8;
    pub(crate) fn tera_has(session: *mut *mut Held, name: *const u8, name_len: usize) -> u8;
    pub(crate) fn tera_remove(session: *mut *mut Held, name: *const u8, name_len: usize) -> u8;
    pub(crate) fn tera_names(
        session: *mut *mut Held,
        room: *mut u8,
        room_len: usize,
        len: *mut usize,
    ) -> u8;
    pub(crate) fn tera_save(
        session: *mut *mut Held,
        room: *mut u8,
        room_len: usize,
        len: *mut usize,
    ) -> u8;
    pub(crate) fn tera_replay(
        script: *const u8,
        script_len: usize,
        answers: *mut u8,
        answers_room: usize,
        answers_len: *mut usize,
        report: *mut u8,
        report_room: usize,
        report_len: *mut usize,
    ) -> u8;
    pub(crate) fn tera_replay_seeded(
        script: *const u8,
        script_len: usize,
        seed: *const u8,
        answers: *mut u8,
        answers_room: usize,
        answers_len: *mut usize,
        report: *mut u8,
        report_room: usize,
        report_len: *mut usize,
    ) -> u8;
    pub(crate) fn tera_escape(
        text: *const u8,
        text_len: usize,
        room: *mut u8,
        room_len: usize,
        escaped_len: *mut usize,
    ) -> u8;
}
