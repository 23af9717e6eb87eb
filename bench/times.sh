#!/bin/sh
# How long parts and boundaries of instants take beside the kit's jiff doing the same, in nanoseconds a call: each part, and the start of
# an hour, a day, a month and a year, each from a number of milliseconds to one. And how long 1,000,000 instants take by `yearmonth`.
# It makes a program in a folder of its own with copies of the crates, and of what was proved of them, proves it, and runs it as LLVM
# builds it. Run it with `rt` on the path.
set -e
top=$(cd "$(dirname "$0")/.." && pwd)
work=$(mktemp -d)
trap 'rm -rf "$work"' EXIT
mkdir -p "$work/crates/bench_times/src"
for crate in text_kit fixed_num case_table time_calc; do
    cp -a "$top/crates/$crate" "$work/crates/$crate"
    grep "^$crate:" "$top/crates.txt" >> "$work/crates.txt"
done
printf 'bench_times: fixed_num case_table time_calc jiff\n' >> "$work/crates.txt"
printf 'Handles allowed: none.\n' > "$work/HANDLES"
cat > "$work/crates/bench_times/src/main.rt" <<'EOF'
#![tactic(auto)]

use fixed_num::Num;
use jiff::Timestamp;
use jiff::civil::{DateTime, Time};
use jiff::tz::Offset;
use std::io;
use std::rt::Clock;
use std::time::Instant;
use time_calc::{PartOf, Unit, part, span_of, truncate, unit_rule};

const TURNS: u32 = 4_000_000;

const INSTANTS: u32 = 1_000_000;

// The i-th instant, in milliseconds, from 1900 to 2100.
fn instant(i: u32) -> i64 {
    let mixed = u64::from(i).wrapping_mul(6_364_136_223_846_793_005) >> 20;
    (mixed % 6_311_433_600_000) as i64 - 2_208_988_800_000
}

fn number(i: u32) -> Option<Num> {
    Num::of_millionths(i128::from(instant(i)) * 1_000_000)
}

fn count_of(found: Option<Num>) -> i128 {
    match found {
        Some(found) => found.millionths(),
        None => 1,
    }
}

fn nothing(turns: u32) -> i128 {
    let mut all = 0;
    for i in 0..turns {
        all ^= count_of(number(i));
    }
    all
}

fn parts(turns: u32, p: PartOf) -> i128 {
    let mut all = 0;
    for i in 0..turns {
        if let Some(at) = number(i) {
            all ^= count_of(part(at, p));
        }
    }
    all
}

fn starts(turns: u32, unit: Unit) -> i128 {
    let mut all = 0;
    for i in 0..turns {
        if let Some(at) = number(i) {
            if unit != Unit::Week {
                all ^= count_of(truncate(at, unit, 1));
            }
        }
    }
    all
}

fn datetime(ms: i64) -> Option<DateTime> {
    Some(Offset::UTC.to_datetime(Timestamp::from_millisecond(ms).ok()?))
}

fn milliseconds(at: DateTime) -> Option<i128> {
    Some(i128::from(Offset::UTC.to_timestamp(at).ok()?.as_millisecond()))
}

// A part as jiff gives it: a type each, so that the code of one has nothing of the others.
trait JiffPart {
    fn of(at: DateTime) -> i128;
}

struct Millisecond;

impl JiffPart for Millisecond {
    fn of(at: DateTime) -> i128 {
        i128::from(at.millisecond())
    }
}

struct Second;

impl JiffPart for Second {
    fn of(at: DateTime) -> i128 {
        i128::from(at.second())
    }
}

struct Minute;

impl JiffPart for Minute {
    fn of(at: DateTime) -> i128 {
        i128::from(at.minute())
    }
}

struct Hour;

impl JiffPart for Hour {
    fn of(at: DateTime) -> i128 {
        i128::from(at.hour())
    }
}

struct Weekday;

impl JiffPart for Weekday {
    fn of(at: DateTime) -> i128 {
        i128::from(at.weekday().to_sunday_zero_offset())
    }
}

struct DayOfMonth;

impl JiffPart for DayOfMonth {
    fn of(at: DateTime) -> i128 {
        i128::from(at.day())
    }
}

struct Month;

impl JiffPart for Month {
    fn of(at: DateTime) -> i128 {
        i128::from(at.month() - 1)
    }
}

struct Quarter;

impl JiffPart for Quarter {
    fn of(at: DateTime) -> i128 {
        i128::from((at.month() - 1) / 3 + 1)
    }
}

struct Year;

impl JiffPart for Year {
    fn of(at: DateTime) -> i128 {
        i128::from(at.year())
    }
}

fn jiff_part<J: JiffPart>(ms: i64) -> Option<i128> {
    Some(J::of(datetime(ms)?))
}

fn jiff_start(unit: Unit, ms: i64) -> Option<i128> {
    let at = datetime(ms)?;
    match unit {
        Unit::Year => milliseconds(at.date().first_of_year().to_datetime(Time::midnight())),
        Unit::Month => milliseconds(at.date().first_of_month().to_datetime(Time::midnight())),
        Unit::Day => milliseconds(at.start_of_day()),
        _ => milliseconds(at.date().to_datetime(Time::new(at.hour(), 0, 0, 0).ok()?)),
    }
}

fn jiff_parts<J: JiffPart>(turns: u32) -> i128 {
    let mut all = 0;
    for i in 0..turns {
        if let Some(found) = jiff_part::<J>(instant(i)) {
            all ^= found;
        }
    }
    all
}

fn jiff_starts(turns: u32, unit: Unit) -> i128 {
    let mut all = 0;
    for i in 0..turns {
        if let Some(found) = jiff_start(unit, instant(i)) {
            all ^= found;
        }
    }
    all
}

fn spans(turns: u32) -> i128 {
    let mut all = 0;
    if let Some(rule) = unit_rule(3) {
        for i in 0..turns {
            if let Some(at) = number(i) {
                if let Some((start, end)) = span_of(at, &rule) {
                    all ^= start.millionths() ^ end.millionths();
                }
            }
        }
    }
    all
}

fn tell(rt: &(impl Print + Clock), name: &str, start: Instant, found: i128) -> io::Result<()> {
    let time = start.elapsed(rt)?.as_nanos() / u128::from(TURNS);
    println!(rt; "{name} {time} ns  ({found})")
}

fn compare_parts<J: JiffPart>(
    rt: &(impl Print + Clock),
    name: &str,
    p: PartOf,
) -> io::Result<()> {
    let start = Instant::now(rt)?;
    let found = parts(TURNS, p);
    tell(rt, name, start, found)?;
    let start = Instant::now(rt)?;
    let found = jiff_parts::<J>(TURNS);
    tell(rt, "  jiff                ", start, found)
}

fn compare_starts(rt: &(impl Print + Clock), name: &str, unit: Unit) -> io::Result<()> {
    let start = Instant::now(rt)?;
    let found = starts(TURNS, unit);
    tell(rt, name, start, found)?;
    let start = Instant::now(rt)?;
    let found = jiff_starts(TURNS, unit);
    tell(rt, "  jiff                ", start, found)
}

fn main(rt: HostRuntime) -> io::Result<()> {
    let start = Instant::now(&rt)?;
    let found = nothing(TURNS);
    tell(&rt, "the numbers alone     ", start, found)?;
    compare_parts::<Millisecond>(&rt, "the millisecond       ", PartOf::Milliseconds)?;
    compare_parts::<Second>(&rt, "the second            ", PartOf::Seconds)?;
    compare_parts::<Minute>(&rt, "the minute            ", PartOf::Minutes)?;
    compare_parts::<Hour>(&rt, "the hour              ", PartOf::Hours)?;
    compare_parts::<Weekday>(&rt, "the day of the week   ", PartOf::Day)?;
    compare_parts::<DayOfMonth>(&rt, "the date              ", PartOf::Date)?;
    compare_parts::<Month>(&rt, "the month             ", PartOf::Month)?;
    compare_parts::<Quarter>(&rt, "the quarter           ", PartOf::Quarter)?;
    compare_parts::<Year>(&rt, "the year              ", PartOf::Year)?;
    compare_starts(&rt, "the start of the hour ", Unit::Hour)?;
    compare_starts(&rt, "the start of the day  ", Unit::Day)?;
    compare_starts(&rt, "the start of the month", Unit::Month)?;
    compare_starts(&rt, "the start of the year ", Unit::Year)?;
    let start = Instant::now(&rt)?;
    let found = spans(INSTANTS);
    let time = start.elapsed(&rt)?.as_millis();
    println!(rt; "1,000,000 instants by yearmonth {time} ms  ({found})")
}
EOF
cd "$work/crates/bench_times"
rt run > "$work/log" 2>&1 || { cat "$work/log" >&2; exit 1; }
grep ' [mn]s ' "$work/log"
