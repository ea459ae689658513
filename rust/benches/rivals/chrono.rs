//! libstdc++'s chrono, from benches/chrono.cpp.

use ovenquill::{Date, Fields, WeekDate};

extern "C" {
    pub fn chrono_days_from_civil(year: i64, month: i64, day: i64, days: *mut i64) -> i64;
    pub fn chrono_civil_from_days(days: i64, date: *mut Date) -> i64;
    pub fn chrono_weekday(days: i64) -> i64;
    pub fn chrono_is_leap(year: i64) -> i64;
    pub fn chrono_last_day_of_month(year: i64, month: i64) -> i64;
    pub fn chrono_day_of_year(year: i64, month: i64, day: i64) -> i64;
    pub fn chrono_add_days(year: i64, month: i64, day: i64, days: i64, date: *mut Date) -> i64;
    pub fn chrono_week_from_days(days: i64, week: *mut WeekDate) -> i64;
    pub fn chrono_days_from_week(year: i64, week: i64, weekday: i64, days: *mut i64) -> i64;
    pub fn chrono_day_of_instant(instant: i64, days: *mut i64) -> i64;
    pub fn chrono_split_instant(instant: i64, fields: *mut Fields) -> i64;
    pub fn chrono_join_instant(
        year: i64,
        month: i64,
        day: i64,
        hour: i64,
        minute: i64,
        second: i64,
        millisecond: i64,
        instant: *mut i64,
    ) -> i64;
}
