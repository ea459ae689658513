// libstdc++'s calendar, with the signatures, the answers and the refusals of the C calls: a rival in benches/ratios.rs.
//
//     g++ -O3 -std=c++20 -falign-functions=64 -c rust/benches/chrono.cpp -o build/chrono/chrono.o
//     ar rcs build/chrono/libovenquill_chrono.a build/chrono/chrono.o
//     OVENQUILL_CHRONO=$PWD/build/chrono cargo bench      (in rust/)
//
// `make bench` does this, and has every other function begin at a multiple of 64 bytes too.

#include <algorithm>
#include <chrono>
#include <cstdint>

using namespace std::chrono;

static constexpr int64_t first_year = -32000, last_year = 31999;
static constexpr int64_t first_week_year = first_year - 1, last_week_year = last_year;
static constexpr sys_days first_day{year{first_year} / January / 1}, last_day{year{last_year} / December / 31};
static constexpr int64_t first_count = first_day.time_since_epoch().count();
static constexpr int64_t last_count = last_day.time_since_epoch().count();

// The unit of an instant.
using unit = milliseconds;
static constexpr int64_t first_instant = unit{first_day.time_since_epoch()}.count();
static constexpr int64_t last_instant = unit{last_day.time_since_epoch() + days{1}}.count() - 1;

struct date_answer {
    int64_t year, month, day;
};

struct week_answer {
    int64_t year, week, weekday;
};

struct fields_answer {
    int64_t year, month, day, hour, minute, second, millisecond;
};

static inline bool outside(int64_t number, int64_t first, int64_t last)
{
    return number < first || number > last;
}

// A day that is ok exactly if the number is a day of some month: a larger one becomes the largest that a day can hold.
static inline day day_of(int64_t d)
{
    return day{static_cast<unsigned>(std::min<uint64_t>(static_cast<uint64_t>(d), 255))};
}

// The date, whose own ok() tests the day; or a refusal, negated.
static inline int64_t checked(int64_t y, int64_t m, int64_t d, year_month_day &date)
{
    if (outside(y, first_year, last_year)) {
        return -1;
    }
    if (outside(m, 1, 12)) {
        return -2;
    }
    date = year{static_cast<int>(y)} / month{static_cast<unsigned>(m)} / day_of(d);
    return date.ok() ? 0 : -3;
}

static inline date_answer answered(year_month_day date)
{
    return {static_cast<int>(date.year()), static_cast<unsigned>(date.month()), static_cast<unsigned>(date.day())};
}

static inline sys_days day_at(int64_t count)
{
    return sys_days{days{static_cast<int>(count)}};
}

extern "C" int64_t chrono_days_from_civil(int64_t y, int64_t m, int64_t d, int64_t *count)
{
    year_month_day date;
    if (const int64_t refused = checked(y, m, d, date)) {
        return refused;
    }
    *count = sys_days{date}.time_since_epoch().count();
    return 0;
}

extern "C" int64_t chrono_civil_from_days(int64_t count, date_answer *date)
{
    if (outside(count, first_count, last_count)) {
        return -4;
    }
    *date = answered(year_month_day{day_at(count)});
    return 0;
}

extern "C" int64_t chrono_weekday(int64_t count)
{
    if (outside(count, first_count, last_count)) {
        return -4;
    }
    return weekday{day_at(count)}.iso_encoding();
}

extern "C" int64_t chrono_is_leap(int64_t y)
{
    if (outside(y, first_year, last_year)) {
        return -1;
    }
    return year{static_cast<int>(y)}.is_leap();
}

extern "C" int64_t chrono_last_day_of_month(int64_t y, int64_t m)
{
    if (outside(y, first_year, last_year)) {
        return -1;
    }
    if (outside(m, 1, 12)) {
        return -2;
    }
    return static_cast<unsigned>((year{static_cast<int>(y)} / month{static_cast<unsigned>(m)} / last).day());
}

extern "C" int64_t chrono_day_of_year(int64_t y, int64_t m, int64_t d)
{
    year_month_day date;
    if (const int64_t refused = checked(y, m, d, date)) {
        return refused;
    }
    return (sys_days{date} - sys_days{date.year() / January / 1}).count() + 1;
}

extern "C" int64_t chrono_add_days(int64_t y, int64_t m, int64_t d, int64_t shift, date_answer *shifted)
{
    year_month_day date;
    if (const int64_t refused = checked(y, m, d, date)) {
        return refused;
    }
    int64_t count;
    if (__builtin_add_overflow(sys_days{date}.time_since_epoch().count(), shift, &count)
        || outside(count, first_count, last_count)) {
        return -4;
    }
    *shifted = answered(year_month_day{day_at(count)});
    return 0;
}

extern "C" int64_t chrono_week_from_days(int64_t count, week_answer *week)
{
    if (outside(count, first_count, last_count)) {
        return -4;
    }
    const sys_days day = day_at(count);
    const weekday of_day{day};
    const sys_days thursday = day - (of_day - Monday) + (Thursday - Monday);
    const year y = year_month_day{thursday}.year();
    *week = {static_cast<int>(y), (thursday - sys_days{y / January / 1}) / weeks{1} + 1, of_day.iso_encoding()};
    return 0;
}

// The Monday of a year's week 1, in which 4 January lies.
static inline sys_days first_monday(year y)
{
    const sys_days in_week_1{y / January / 4};
    return in_week_1 - (weekday{in_week_1} - Monday);
}

extern "C" int64_t chrono_days_from_week(int64_t y, int64_t w, int64_t d, int64_t *count)
{
    if (outside(y, first_week_year, last_week_year)) {
        return -1;
    }
    if (outside(w, 1, 53) || outside(d, 1, 7)) {
        return -16;
    }
    const year week_year{static_cast<int>(y)};
    const sys_days monday = first_monday(week_year) + weeks{w - 1};
    if (w == 53 && monday == first_monday(week_year + years{1})) {
        return -16;
    }
    const int64_t reached = (monday + days{d - 1}).time_since_epoch().count();
    if (outside(reached, first_count, last_count)) {
        return -4;
    }
    *count = reached;
    return 0;
}

extern "C" int64_t chrono_day_of_instant(int64_t instant, int64_t *count)
{
    if (outside(instant, first_instant, last_instant)) {
        return -4;
    }
    *count = floor<days>(unit{instant}).count();
    return 0;
}

extern "C" int64_t chrono_split_instant(int64_t instant, fields_answer *fields)
{
    if (outside(instant, first_instant, last_instant)) {
        return -4;
    }
    const sys_time<unit> when{unit{instant}};
    const sys_days day = floor<days>(when);
    const date_answer date = answered(year_month_day{day});
    const hh_mm_ss<unit> time{when - day};
    *fields = {date.year, date.month, date.day, time.hours().count(), time.minutes().count(), time.seconds().count(),
               time.subseconds().count()};
    return 0;
}

extern "C" int64_t chrono_join_instant(int64_t y, int64_t m, int64_t d, int64_t hour, int64_t minute, int64_t second,
                                       int64_t millisecond, int64_t *instant)
{
    year_month_day date;
    if (const int64_t refused = checked(y, m, d, date)) {
        return refused;
    }
    if (outside(hour, 0, 23) || outside(minute, 0, 59) || outside(second, 0, 59)
        || outside(millisecond, 0, unit{seconds{1}}.count() - 1)) {
        return -5;
    }
    const unit time = hours{hour} + minutes{minute} + seconds{second} + unit{millisecond};
    *instant = (sys_days{date} + time).time_since_epoch().count();
    return 0;
}
