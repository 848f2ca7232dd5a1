#!/usr/bin/env bash
# Times the making and the check of the largest home, of 10,000 subscribers with room for 120,000 call rows: of a new
# database, and of one whose tables each stand in as few chains as their keys allow, one or four. As a built program
# runs them, which is proved first. Outside the gate. Works on a copy.
set -eu
top=$(cd "$(dirname "$0")/.." && pwd)
room=$(mktemp -d)
trap 'rm -rf "$room"' EXIT
mkdir -p "$room/crates"
cp "$top/HANDLES" "$top/crates.txt" "$room/"
cp -a "$top/crates/." "$room/crates/"
echo 'table_bench: dude_base tatp_model word_space record_heap hash_table tatp_layout tatp_rows tatp_check' >> "$room/crates.txt"
mkdir -p "$room/crates/table_bench/src"
cat > "$room/crates/table_bench/src/main.rt" <<'END'
#![tactic(auto)]

ghost use Rattle.std.specs.Prelude.{◌≡◌, ◌*◌, length};
ghost use Rattle.dude_base.specs.declared.limits.TheConstants.{PAGE};

use dude_base::sizes::Sizes;
use hash_table::table::Table;
use std::test::Fail;
use std::time::Instant;
use tatp_check::check;
use tatp_layout::Layout;
use tatp_rows::populate;

fn main(rt: HostRuntime) -> Result<(), Fail> {
    let lay = Layout::of(&Sizes::of(10_000, 120_000, 2, 16)?)?;
    let start = Instant::now(&rt)?;
    let mut home = populate(rt.alloc(), &lay)?;
    println!(rt; "a new database: made in {:?}", start.elapsed(&rt)?)?;
    time(&rt, "a new database", &lay, &home)?;
    let ids = lay.subscribers();
    let numbers = lay.numbers();
    scale(&mut home, &ids, 7);
    scale(&mut home, &numbers, 2);
    chain(&mut home, &ids, 1);
    chain(&mut home, &numbers, 1);
    chain(&mut home, &lay.access(), 4);
    chain(&mut home, &lay.facilities(), 4);
    chain(&mut home, &lay.calls(), 12);
    time(&rt, "few chains", &lay, &home)
}

fn word(home: &[u64], at: u64) -> u64 {
    home.get(at as usize).copied().unwrap_or(0)
}

fn set(home: &mut [u64], at: u64, value: u64)
    ensures { length home.new ≡ length home.old }
{
    if let Some(word) = home.get_mut(at as usize) {
        *word = value;
    }
}

// Makes one word of each record 10,000 times as great.
fn scale(home: &mut [u64], table: &Table, behind: u64)
    ensures { length home.new ≡ length home.old }
{
    for index in 0..table.pool.count {
        let record = table.pool.first.wrapping_add(table.pool.size.wrapping_mul(index));
        let at = record.wrapping_add(behind);
        set(home, at, word(home, at).wrapping_mul(10_000));
    }
}

// Gives each row's subscriber an id 10,000 times as great, so that the keys fall into as few buckets as may be.
fn chain(home: &mut [u64], table: &Table, rows: u64)
    ensures { length home.new ≡ length home.old }
{
    for bucket in 0..table.buckets {
        set(home, table.at.wrapping_add(bucket), 0);
    }
    let taken = word(home, table.pool.base.wrapping_add(1));
    for index in 0..taken {
        let at = table.pool.first.wrapping_add(table.pool.size.wrapping_mul(index));
        let key = word(home, at);
        let part = key.checked_rem(rows).unwrap_or(0);
        let key = key.wrapping_sub(part).wrapping_mul(10_000).wrapping_add(part);
        let link = table.at.wrapping_add(key.checked_rem(table.buckets).unwrap_or(0));
        set(home, at, key);
        set(home, at.wrapping_add(1), word(home, link));
        set(home, link, at);
    }
}

fn time(rt: &HostRuntime, name: &str, lay: &Layout, home: &[u64]) -> Result<(), Fail>
    requires { length home.now ≡ lay.now.pages * PAGE }
{
    let start = Instant::now(rt)?;
    let answer = check(rt.alloc(), lay, home);
    println!(rt; "{name}: {answer:?} in {:?}", start.elapsed(rt)?)?;
    Ok(())
}
END
cd "$room/crates/table_bench"
rt run
