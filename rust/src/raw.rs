//! The C interface as the archive has it: include/ovenquill.h says what each call answers and asks of its pointers.
//! Every call returns a number from 0, or the refusal's number negated.
#![allow(missing_docs)]

use crate::sheet::Record;
use crate::{Cue, Date, Fields, WeekDate};

/// A transport clock: `heard` is 0 where nothing has been heard yet, and `position` is then not looked at.
#[derive(Clone, Copy, Debug, PartialEq, Eq)]
#[repr(C)]
pub struct Clock {
    pub heard: i64,
    pub position: i64,
}

extern "C" {
    pub fn ovenquill_days_from_civil(year: i64, month: i64, day: i64, days: *mut i64) -> i64;
    pub fn ovenquill_civil_from_days(days: i64, date: *mut Date) -> i64;
    pub fn ovenquill_civil_from_days_plain(days: i64, date: *mut Date) -> i64;
    pub fn ovenquill_civil_from_days_audit(days: i64, date: *mut Date) -> i64;
    pub fn ovenquill_weekday(days: i64) -> i64;
    pub fn ovenquill_is_leap(year: i64) -> i64;
    pub fn ovenquill_last_day_of_month(year: i64, month: i64) -> i64;
    pub fn ovenquill_day_of_year(year: i64, month: i64, day: i64) -> i64;
    pub fn ovenquill_add_days(year: i64, month: i64, day: i64, days: i64, date: *mut Date) -> i64;

    pub fn ovenquill_week_from_days(days: i64, week: *mut WeekDate) -> i64;
    pub fn ovenquill_days_from_week(year: i64, week: i64, weekday: i64, days: *mut i64) -> i64;

    pub fn ovenquill_day_of_instant(instant: i64, days: *mut i64) -> i64;
    pub fn ovenquill_split_instant(instant: i64, fields: *mut Fields) -> i64;
    pub fn ovenquill_join_instant(
        year: i64,
        month: i64,
        day: i64,
        hour: i64,
        minute: i64,
        second: i64,
        millisecond: i64,
        instant: *mut i64,
    ) -> i64;
    pub fn ovenquill_index_days(
        instants: *const i64,
        count: usize,
        days: *mut i32,
        days_length: usize,
        place: *mut i64,
    ) -> i64;

    pub fn ovenquill_write_instant(instant: i64, out: *mut u8, length: usize) -> i64;
    pub fn ovenquill_read_instant(label: *const u8, length: usize, instant: *mut i64) -> i64;
    pub fn ovenquill_write_week(days: i64, out: *mut u8, length: usize) -> i64;
    pub fn ovenquill_read_week(label: *const u8, length: usize, days: *mut i64) -> i64;
    pub fn ovenquill_write_position(position: i64, out: *mut u8, length: usize) -> i64;
    pub fn ovenquill_read_position(text: *const u8, length: usize) -> i64;
    pub fn ovenquill_read_cue(line: *const u8, length: usize, cue: *mut Cue) -> i64;

    pub fn ovenquill_first_difference(a: i64, b: i64, d: i64, m: i64, c: i64, k: i64, t: i64, end: i64) -> i64;
    pub fn ovenquill_check_bound(
        a: i64,
        b: i64,
        d: i64,
        m: i64,
        c: i64,
        k: i64,
        t: i64,
        bound: i64,
        least: *mut i64,
    ) -> i64;

    pub fn ovenquill_sheet_read(sheet: *const u8, length: usize, note_length: *mut i64) -> i64;
    pub fn ovenquill_sheet_record(sheet: *const u8, length: usize, place: i64, record: *mut Record) -> i64;
    pub fn ovenquill_sheet_check(sheet: *const u8, length: usize, place: i64, least: *mut i64) -> i64;
    pub fn ovenquill_sheet_write(
        note: *const u8,
        note_length: usize,
        numbers: *const u32,
        count: usize,
        out: *mut u8,
        length: usize,
    ) -> i64;
    pub fn ovenquill_sheet_report(sheet: *const u8, length: usize, out: *mut u8, out_length: usize) -> i64;

    pub fn ovenquill_follow(clock: *mut Clock, value: i64) -> i64;
    pub fn ovenquill_follow_all(clock: *mut Clock, values: *const i64, count: usize) -> i64;
}
