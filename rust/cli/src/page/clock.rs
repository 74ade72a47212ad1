//! The time of day of a log's seconds. A log has no clock: second 0 is told, or days are counted from it.

const DAY: i64 = 86_400;
const MONTHS: [&str; 12] = [
    "January",
    "February",
    "March",
    "April",
    "May",
    "June",
    "July",
    "August",
    "September",
    "October",
    "November",
    "December",
];
/// 1 January 1970 was the first of these.
const WEEKDAYS: [&str; 7] = ["Thursday", "Friday", "Saturday", "Sunday", "Monday", "Tuesday", "Wednesday"];

/// What the seconds of a log mean.
#[derive(Clone, Copy, Debug, PartialEq, Eq)]
pub struct Clock {
    /// Second 0, in seconds from 1970 on; None where days are counted from second 0.
    start: Option<i64>,
}

impl Clock {
    pub fn counted() -> Clock {
        Clock { start: None }
    }

    /// Second 0 is at this time, as in `2026-11-09`, `2026-11-09T09:30` or `2026-11-09T09:30:05`.
    pub fn read(typed: &str) -> Option<Clock> {
        let (date, time) = typed.split_once(['T', ' ']).unwrap_or((typed, "00:00"));
        let [year, month, day] = numbers(date, '-', &[4, 2, 2])?[..] else { return None };
        let time = numbers(time, ':', &[2, 2]).or_else(|| numbers(time, ':', &[2, 2, 2]))?;
        let (hour, minute, second) = (time[0], time[1], *time.get(2).unwrap_or(&0));
        let days = days_to(year, month, day);
        let there = year >= 1970 && month <= 12 && date_of(days) == (year, month, day);
        let in_day = hour < 24 && minute < 60 && second < 60;
        (there && in_day).then_some(Clock { start: Some(days * DAY + hour * 3600 + minute * 60 + second) })
    }

    pub fn is_dated(self) -> bool {
        self.start.is_some()
    }

    fn at(self, second: u32) -> i64 {
        self.start.unwrap_or(0) + i64::from(second)
    }

    /// The number of a second's day.
    pub fn day(self, second: u32) -> i64 {
        self.at(second).div_euclid(DAY)
    }

    /// The second of the day.
    pub fn in_day(self, second: u32) -> u32 {
        self.at(second).rem_euclid(DAY) as u32
    }

    /// `Mon 9 Nov`, or `day 1`.
    pub fn short(self, day: i64) -> String {
        if self.start.is_none() {
            return format!("day {}", day + 1);
        }
        let (_, month, of_month) = date_of(day);
        format!("{} {of_month} {}", &weekday(day)[..3], &MONTHS[month as usize - 1][..3])
    }

    /// `Monday 9 November 2026`, or `day 1`.
    pub fn long(self, day: i64) -> String {
        if self.start.is_none() {
            return format!("day {}", day + 1);
        }
        let (year, month, of_month) = date_of(day);
        format!("{} {of_month} {} {year}", weekday(day), MONTHS[month as usize - 1])
    }

    pub fn time(self, second: u32) -> String {
        of_day(self.in_day(second))
    }

    pub fn moment(self, second: u32) -> String {
        format!("{} {}", self.long(self.day(second)), self.time(second))
    }

    pub fn short_moment(self, second: u32) -> String {
        format!("{} {}", self.short(self.day(second)), self.time(second))
    }

    /// From one second to another. A day is never left out of a second time that lies on another day.
    pub fn span(self, from: u32, to: u32) -> String {
        let first = self.short_moment(from);
        match from == to {
            true => first,
            false if self.day(from) == self.day(to) => format!("{first} to {}", self.time(to)),
            false => format!("{first} to {}", self.short_moment(to)),
        }
    }

    /// A span of seconds cut at midnight: the day, and its first and last second of that day.
    pub fn by_day(self, from: u32, to: u32) -> impl Iterator<Item = (i64, u32, u32)> {
        let (first, last) = (self.day(from), self.day(to));
        (first..=last).map(move |day| {
            let begins = if day == first { self.in_day(from) } else { 0 };
            let ends = if day == last { self.in_day(to) } else { DAY as u32 - 1 };
            (day, begins, ends)
        })
    }
}

/// The time of a second of the day.
pub fn of_day(second: u32) -> String {
    format!("{}:{:02}:{:02}", second / 3600, second / 60 % 60, second % 60)
}

/// The moment, in UTC, that lies so many seconds behind the first of 1970.
pub fn moment_of(seconds: u64) -> String {
    let clock = Clock { start: Some(seconds as i64) };
    format!("{} {} UTC", clock.long(clock.day(0)), &clock.time(0)[..clock.time(0).len() - 3])
}

/// Numbers with exactly so many digits.
fn numbers(text: &str, between: char, digits: &[usize]) -> Option<Vec<i64>> {
    let parts: Vec<&str> = text.split(between).collect();
    let fits =
        |(part, &digits): (&&str, &usize)| part.len() == digits && part.bytes().all(|byte| byte.is_ascii_digit());
    let all = parts.len() == digits.len() && parts.iter().zip(digits).all(fits);
    all.then(|| parts.iter().filter_map(|part| part.parse().ok()).collect())
}

fn weekday(day: i64) -> &'static str {
    WEEKDAYS[day.rem_euclid(7) as usize]
}

/// The days from the first of 1970 to a date, in years that begin with March: a leap day is the last of its year.
fn days_to(year: i64, month: i64, day: i64) -> i64 {
    let (year, month) = if month < 3 { (year - 1, month + 9) } else { (year, month - 3) };
    year * 365 + year / 4 - year / 100 + year / 400 + (153 * month + 2) / 5 + day - 1 - 719_468
}

/// The date so many days behind the first of 1970: year, month, day.
fn date_of(days: i64) -> (i64, i64, i64) {
    let days = days + 719_468;
    let (era, of_era) = (days.div_euclid(146_097), days.rem_euclid(146_097));
    let of_years = (of_era - of_era / 1_460 + of_era / 36_524 - of_era / 146_096) / 365;
    let of_year = of_era - (365 * of_years + of_years / 4 - of_years / 100);
    let month = (5 * of_year + 2) / 153;
    let day = of_year - (153 * month + 2) / 5 + 1;
    let (year, month) = if month < 10 { (of_years, month + 3) } else { (of_years + 1, month - 9) };
    (year + 400 * era, month, day)
}

#[cfg(test)]
mod tests {
    use super::{date_of, days_to, moment_of, Clock};

    #[test]
    fn dates_and_times() {
        let clock = Clock::read("2026-11-09T09:00").unwrap();
        assert_eq!(clock.moment(0), "Monday 9 November 2026 9:00:00");
        assert_eq!(clock.short_moment(4 * 86_400 + 32_400), "Fri 13 Nov 18:00:00");
        assert_eq!(clock.span(10, 10), "Mon 9 Nov 9:00:10");
        assert_eq!(clock.span(10, 70), "Mon 9 Nov 9:00:10 to 9:01:10");
        assert_eq!(clock.span(10, 54_000), "Mon 9 Nov 9:00:10 to Tue 10 Nov 0:00:00");
        let days: Vec<_> = clock.by_day(53_999, 54_001).map(|(day, from, to)| (clock.short(day), from, to)).collect();
        assert_eq!(days, [("Mon 9 Nov".to_string(), 86_399, 86_399), ("Tue 10 Nov".to_string(), 0, 1)]);
        assert_eq!(Clock::counted().span(60, 86_400 + 5), "day 1 0:01:00 to day 2 0:00:05");
        assert_eq!(Clock::counted().moment(60), "day 1 0:01:00");
        assert_eq!(moment_of(0), "Thursday 1 January 1970 0:00 UTC");
        assert_eq!(moment_of(1_782_900_240), "Wednesday 1 July 2026 10:04 UTC");
    }

    #[test]
    fn what_is_a_date() {
        let midnight = Clock::read("2024-02-29").unwrap();
        assert_eq!(midnight.moment(0), "Thursday 29 February 2024 0:00:00");
        assert_eq!(Clock::read("2024-02-29T00:00:00"), Some(midnight));
        assert_eq!(Clock::read("2024-02-29 00:00"), Some(midnight));
        assert_eq!(Clock::read("2026-11-09T23:59:59").unwrap().time(0), "23:59:59");
        let wrong = [
            "",
            "2026",
            "2026-11",
            "2026-11-9",
            "26-11-09",
            "2026-11-31",
            "2023-02-29",
            "2026-13-01",
            "2026-00-10",
            "2026-01-00",
            "2026-11-09T",
            "2026-11-09T9",
            "2026-11-09T24:00",
            "2026-11-09T23:60",
            "2026-11-09T23:59:60",
            "2026-11-09T9:00",
            "+026-11-09",
            "1969-12-31",
            "2026-11-09T09:00:00:00",
            "2026-11-09T09:00Z",
        ];
        for typed in wrong {
            assert_eq!(Clock::read(typed), None, "{typed}");
        }
    }

    #[test]
    fn every_day_there_and_back() {
        for days in 0..100_000 {
            let (year, month, day) = date_of(days);
            assert_eq!(days_to(year, month, day), days);
        }
    }
}
