//! The machine's own calendar day and the time, as they are said.
use chrono::{DateTime, Datelike, Local, SecondsFormat, Utc};
use quayrudder::Date;
use std::time::SystemTime;

/// The zone of the machine counts: one that is named in the environment could make it tomorrow.
pub fn forget_the_callers_zone() {
    std::env::remove_var("TZ");
}

pub fn today() -> Date {
    let now = DateTime::<Local>::from(SystemTime::now());
    Date { year: now.year().max(0) as u32, month: now.month(), day: now.day() }
}

pub fn now() -> String {
    time_text(SystemTime::now())
}

/// Seconds of the universal time.
pub fn time_text(time: SystemTime) -> String {
    DateTime::<Utc>::from(time).to_rfc3339_opts(SecondsFormat::Secs, true)
}

pub fn date_text(date: Date) -> String {
    let Date { year, month, day } = date;
    format!("{year:04}-{month:02}-{day:02}")
}

pub fn is_before(first: Date, second: Date) -> bool {
    let order = |date: Date| (date.year, date.month, date.day);
    order(first) < order(second)
}
