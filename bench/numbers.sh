#!/bin/sh
# How long a product, a quotient, a step along and a root of numbers take beside one division of 128-bit words, and
# a decimal read and written beside a 64-bit whole number parsed and printed, in nanoseconds a call.
# It makes a program in a folder of its own, proves it, and runs it as LLVM builds it. Run it with `rt` on the path.
set -e
top=$(cd "$(dirname "$0")/.." && pwd)
work=$(mktemp -d)
trap 'rm -rf "$work"' EXIT
mkdir -p "$work/crates/bench_numbers/src" "$work/crates/fixed_num"
for part in src specs proofs; do
    cp -r "$top/crates/fixed_num/$part" "$work/crates/fixed_num/$part"
done
printf 'fixed_num: itoa\nbench_numbers: fixed_num itoa\n' > "$work/crates.txt"
printf 'Handles allowed: none.\n' > "$work/HANDLES"
cat > "$work/crates/bench_numbers/src/main.rt" <<'EOF'
#![tactic(auto)]

use fixed_num::Num;
use std::io;
use std::time::Instant;

const TURNS: u32 = 4_000_000;

fn number(front: i128, i: u32) -> Option<Num> {
    Num::of_millionths(front.wrapping_add(i128::from(i)))
}

fn count_of(found: Option<Num>) -> i128 {
    match found {
        Some(found) => found.millionths(),
        None => 1,
    }
}

fn divide(turns: u32) -> u128 {
    let mut all = 0;
    for i in 0..turns {
        let divisor = 987_654_321_987_654_321 + u128::from(i);
        all ^= 123_456_789_123_456_789_123_456_789_123_456_789 / divisor;
    }
    all
}

fn multiply(turns: u32) -> i128 {
    let mut all = 0;
    for i in 0..turns {
        if let (Some(a), Some(b)) = (number(123_456_789_123_456_789, i), number(7_654_321, i)) {
            all ^= count_of(a.mul(b));
        }
    }
    all
}

fn divide_numbers(turns: u32) -> i128 {
    let mut all = 0;
    for i in 0..turns {
        if let (Some(a), Some(b)) = (number(123_456_789_123_456_789_123, i), number(987_654_321_987, i)) {
            all ^= count_of(a.div(b));
        }
    }
    all
}

fn go_along(turns: u32) -> i128 {
    let mut all = 0;
    for i in 0..turns {
        if let Some(a) = number(5_000_000, i) {
            let r = 1_987_654_321_987_654_321_987 - i128::from(i);
            all ^= count_of(a.along(1_234_567_891_234_567_891_234, 200_000_000_000_000_000_000, r));
        }
    }
    all
}

fn take_roots(turns: u32) -> i128 {
    let mut all = 0;
    for i in 0..turns {
        if let Some(a) = number(123_456_789_123_456_789, i) {
            all ^= count_of(a.root());
        }
    }
    all
}

fn write_and_read(turns: u32) -> i128 {
    let mut all = 0;
    let mut buf = [0; 32];
    for i in 0..turns {
        if let Some(a) = number(123_456_789_012_345, i) {
            let len = a.write_decimal(&mut buf);
            if let Ok(again) = Num::read_decimal(&buf[..len]) {
                all ^= again.millionths();
            }
        }
    }
    all
}

fn print_and_parse(turns: u32) -> i64 {
    let mut all = 0;
    let mut buffer = itoa::Buffer::new();
    for i in 0..turns {
        if let Ok(again) = buffer.format(123_456_789_012_345 + i64::from(i)).parse::<i64>() {
            all ^= again;
        }
    }
    all
}

fn main(rt: HostRuntime) -> io::Result<()> {
    let start = Instant::now(&rt)?;
    let found = divide(TURNS);
    let time = start.elapsed(&rt)?.as_nanos() / u128::from(TURNS);
    println!(rt; "a division of 128-bit words   {time} ns  ({found})")?;
    let start = Instant::now(&rt)?;
    let found = multiply(TURNS);
    let time = start.elapsed(&rt)?.as_nanos() / u128::from(TURNS);
    println!(rt; "a product                     {time} ns  ({found})")?;
    let start = Instant::now(&rt)?;
    let found = divide_numbers(TURNS);
    let time = start.elapsed(&rt)?.as_nanos() / u128::from(TURNS);
    println!(rt; "a quotient                    {time} ns  ({found})")?;
    let start = Instant::now(&rt)?;
    let found = go_along(TURNS);
    let time = start.elapsed(&rt)?.as_nanos() / u128::from(TURNS);
    println!(rt; "a step along                  {time} ns  ({found})")?;
    let start = Instant::now(&rt)?;
    let found = take_roots(TURNS);
    let time = start.elapsed(&rt)?.as_nanos() / u128::from(TURNS);
    println!(rt; "a root                        {time} ns  ({found})")?;
    let start = Instant::now(&rt)?;
    let found = write_and_read(TURNS);
    let time = start.elapsed(&rt)?.as_nanos() / u128::from(TURNS);
    println!(rt; "a decimal written and read    {time} ns  ({found})")?;
    let start = Instant::now(&rt)?;
    let found = print_and_parse(TURNS);
    let time = start.elapsed(&rt)?.as_nanos() / u128::from(TURNS);
    println!(rt; "an i64 printed and parsed     {time} ns  ({found})")?;
    Ok(())
}
EOF
cd "$work/crates/bench_numbers"
rt run
