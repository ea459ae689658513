//! Ours with each way to a month's length, by bits and by the match, from the archive that tools/build_lengths makes.

extern "C" {
    pub fn by_bits_ovenquill_last_day_of_month(year: i64, month: i64) -> i64;
    pub fn by_match_ovenquill_last_day_of_month(year: i64, month: i64) -> i64;
}
