#!/usr/bin/env python3
"""Measures online sums: nanoseconds a position of both summers, beside a plain C loop of the same sums.

    bench/online_sums.py [FOLDER]

Values are fed one after the other, and the sum at each position is read as soon as it is known ('block', 'plain'), or 64
values are fed and the sums of 64 positions are read at once ('blocks', 'plains'), for kernels of span 16 to 5000, with a mass at each tick or at one in
ten. The program on the Rattle side has to be a crate, so it is made in a
scratch folder (FOLDER, or one of its own that is removed afterwards) from copies of this repository's crates; that
proves and builds it. The C loop is compiled by gcc -O2 and -O3 and sums 128 bits wide. Each time is the least of
several, in processor time; 'products' are masses other than 0 times positions. Needs `rt` and `gcc` on the path.
"""
import os
import shutil
import subprocess
import sys
import tempfile

HERE = os.path.dirname(os.path.dirname(os.path.abspath(__file__)))
CRATES = ["sota_units", "sota_hist", "sota_block", "sota_online"]
SPANS = [16, 32, 64, 128, 300, 600, 1000, 2000, 5000]
LENGTH = 16384

MAIN = """\
// Times both summers.
#![tactic(auto)]
ghost use Rattle.std.specs.Prelude.{◌≡◌, ◌<◌, ◌≤◌, false};
ghost use Rattle.sota_hist.specs.Time.{is_closed};

use sota_hist::Histogram;
use sota_online::{BlockSummer, PlainSummer, Summer, Workspace};
use sota_units::{Grain, Mass, Scale, Steps, Tick};
use std::alloc::Global;
use std::io;
use std::marker::Brand;
use std::sync::ledger::{Blank, Ledger};
use std::time::CpuClock;

// Feeds so many values and reads each sum when it is known, and gives the sum of all sums.
fn all_sums<S: Summer, M: Ledger>(
    alloc: Global,
    time: &Histogram,
    length: u32,
    start: u64,
    products: &mut Steps<M>,
) -> u128
    requires open { is_closed time.now ≡ false }
    requires length { length ≤ 65536 }
{
    let mut summer = match S::make(alloc, time, length, 1) {
        Ok(summer) => summer,
        Err(_) => return 0,
    };
    let mut workspace = match Workspace::make(alloc, summer.span()) {
        Ok(workspace) => workspace,
        Err(_) => return 0,
    };
    let mut all = 0u128;
    let mut seed = start;
    for _turn in 0..length {
        if summer.room() == 0 {
            return all;
        }
        seed = seed.wrapping_mul(6364136223846793005).wrapping_add(1);
        let value = Grain::new(seed >> 5).unwrap_or(Grain::ZERO);
        summer.feed(value, &mut workspace, products);
        let position = summer.fed();
        if position > 0 {
            all = all.wrapping_add(summer.sum(position).get());
        }
    }
    all
}

// The same, but feeds 64 values and reads the sums of 64 positions at once.
fn many_sums<S: Summer, M: Ledger>(
    alloc: Global,
    time: &Histogram,
    length: u32,
    start: u64,
    products: &mut Steps<M>,
) -> u128
    requires open { is_closed time.now ≡ false }
    requires length { length ≤ 65536 }
{
    let mut summer = match S::make(alloc, time, length, 1) {
        Ok(summer) => summer,
        Err(_) => return 0,
    };
    let mut workspace = match Workspace::make(alloc, summer.span()) {
        Ok(workspace) => workspace,
        Err(_) => return 0,
    };
    let mut all = 0u128;
    let mut seed = start;
    let mut values = [Grain::ZERO; 64];
    let mut sums = [0u128; 64];
    for _block in 0..length / 64 {
        if summer.room() < 64 {
            return all;
        }
        for turn in 0..64usize {
            seed = seed.wrapping_mul(6364136223846793005).wrapping_add(1);
            values[turn] = Grain::new(seed >> 5).unwrap_or(Grain::ZERO);
        }
        summer.feed_all(&values, &mut workspace, products);
        let fed = summer.fed();
        if fed >= 64 {
            summer.sums(fed - 63, &mut sums);
            for sum in sums {
                all = all.wrapping_add(sum);
            }
        }
    }
    all
}

fn time_of<S: Summer, M: Ledger>(
    rt: &HostRuntime,
    name: &str,
    many: bool,
    step: u32,
    span: u32,
    time: &Histogram,
    length: u32,
    blank: Blank,
) -> io::Result<()>
    requires name { blank.name ≡ M.name }
    requires parts { blank.parts ≡ M.parts }
    requires some { 0 < blank.parts }
    requires open { is_closed time.now ≡ false }
    requires length { length ≤ 65536 }
{
    let mut products = Steps::<M>::new(blank);
    let mut best = u128::MAX;
    let mut all = 0u128;
    for round in 0..5u32 {
        let start = rt.thread_cpu_time()?.as_nanos();
        let sum = if many {
            many_sums::<S, M>(rt.alloc(), time, length, u64::from(round), &mut products)
        } else {
            all_sums::<S, M>(rt.alloc(), time, length, u64::from(round), &mut products)
        };
        all = all.wrapping_mul(3).wrapping_add(sum);
        let took = rt.thread_cpu_time()?.as_nanos().wrapping_sub(start);
        best = best.min(took);
    }
    println!(rt; "{name} {step} {span} {best} {all}")
}

fn time_block<M: Ledger>(
    rt: &HostRuntime,
    many: bool,
    step: u32,
    span: u32,
    time: &Histogram,
    length: u32,
    blank: Blank,
) -> io::Result<()>
    requires open { is_closed time.now ≡ false }
    requires length { length ≤ 65536 }
    requires name { blank.name ≡ M.name }
    requires parts { blank.parts ≡ M.parts }
    requires some { 0 < blank.parts }
{
    let name = if many { "blocks" } else { "block" };
    time_of::<BlockSummer, M>(rt, name, many, step, span, time, length, blank)
}

fn time_plain<M: Ledger>(
    rt: &HostRuntime,
    many: bool,
    step: u32,
    span: u32,
    time: &Histogram,
    length: u32,
    blank: Blank,
) -> io::Result<()>
    requires open { is_closed time.now ≡ false }
    requires length { length ≤ 65536 }
    requires name { blank.name ≡ M.name }
    requires parts { blank.parts ≡ M.parts }
    requires some { 0 < blank.parts }
{
    let name = if many { "plains" } else { "plain" };
    time_of::<PlainSummer, M>(rt, name, many, step, span, time, length, blank)
}

fn spans(rt: &HostRuntime, span: u32, step: u32, length: u32) -> io::Result<()>
    requires { length ≤ 65536 }
{
    let mut pairs = vec![in rt.alloc(); (Tick(0), Mass(0)); 0]?;
    let mut sum = 0u32;
    for place in 0..span {
        if place.checked_rem(step).unwrap_or(1) == 0 || place == span.wrapping_sub(1) {
            let mass = (place.wrapping_mul(7919) % 1000).wrapping_add(1);
            pairs.push((Tick(place.wrapping_add(10)), Mass(mass)))?;
            sum = sum.wrapping_add(mass);
        }
    }
    let scale = Scale::new(sum).unwrap_or(Scale::ONE);
    if pairs.len() > 1_000_000 {
        return Ok(());
    }
    let time = match Histogram::build(rt.alloc(), scale, &pairs) {
        Ok(time) => time,
        Err(_) => return Ok(()),
    };
    if time.is_closed() {
        return Ok(());
    }
    for many in [false, true] {
        time_block::<Brand>(rt, many, step, span, &time, length, Blank::new(1))?;
        time_plain::<Brand>(rt, many, step, span, &time, length, Blank::new(1))?;
    }
    Ok(())
}

fn main(rt: HostRuntime) -> io::Result<()> {
    for step in [1, 10] {
        for span in [SPANS] {
            spans(&rt, span, step, LENGTH)?;
        }
    }
    Ok(())
}
"""

PICKS = """\
use Rattle.online_speed.proofs.spans.Given as goal

abbrev pub ghosts-time_block : goal.ghosts-time_block
ghosts-time_block a = record { name = a.blank.name; parts = a.blank.parts }

abbrev pub ghosts-time_plain : goal.ghosts-time_plain
ghosts-time_plain a = record { name = a.blank.name; parts = a.blank.parts }
"""

# What the loops keep: the start, and that the room is long enough for the kernel.
KEPT = """\
use Rattle.std.proofs.Common.{◌≡◌, ◌≤◌, length}
use Rattle.online_speed.proofs.FUNCTION.Given as goal
"""

LOOP = """
abbrev pub invariant-loop-NAME : goal.invariant-loop-NAME
invariant-loop-NAME g l = record {
  start : (g.S.Summer.state l.summer).start ≡ 1;
  room : length (g.S.Summer.state l.summer).kernel ≤ l.workspace;
}
"""

C = r"""
#include <stdint.h>
#include <stdio.h>
#include <string.h>
#include <time.h>

static uint32_t kernel[SPAN_LIMIT];
static uint64_t values[LENGTH];

// The sum at a position: masses are counted from 1, and values from 0.
__attribute__((noinline)) static unsigned __int128 sum_at(int span, int position) {
    unsigned __int128 sum = 0;
    int few = span < position ? span : position;
    for (int b = 0; b < few; b++)
        sum += (unsigned __int128)kernel[b] * values[position - 1 - b];
    return sum;
}

int main(void) {
    int steps[] = {1, 10}, spans[] = {SPANS};
    for (int s = 0; s < 2; s++)
        for (unsigned k = 0; k < sizeof spans / sizeof *spans; k++) {
            int span = spans[k];
            memset(kernel, 0, sizeof kernel);
            for (uint32_t p = 0; p < (uint32_t)span; p++)
                if (p % steps[s] == 0 || p == (uint32_t)span - 1)
                    kernel[p] = p * 7919u % 1000 + 1;
            double best = 1e18;
            unsigned __int128 all = 0;
            for (uint64_t round = 0; round < 5; round++) {
                struct timespec from, to;
                clock_gettime(CLOCK_THREAD_CPUTIME_ID, &from);
                uint64_t seed = round;
                unsigned __int128 some = 0;
                for (int p = 1; p <= LENGTH; p++) {
                    seed = seed * 6364136223846793005u + 1;
                    uint64_t value = seed >> 5;
                    values[p - 1] = value <= 1000000000000000000u ? value : 0;
                    some += sum_at(span, p);
                }
                all = all * 3 + some;
                clock_gettime(CLOCK_THREAD_CPUTIME_ID, &to);
                double took = (to.tv_sec - from.tv_sec) * 1e9 + (to.tv_nsec - from.tv_nsec);
                best = took < best ? took : best;
            }
            char digits[40], *end = digits + 39;
            for (*end = 0; all; all /= 10)
                *--end = '0' + (int)(all % 10);
            printf("loop %d %d %.0f %s\n", steps[s], span, best, end);
        }
}
"""


def filled(text):
    """The program with the spans and the length that are measured."""
    text = text.replace("SPAN_LIMIT", str(max(SPANS))).replace("SPANS", ", ".join(map(str, SPANS)))
    return text.replace("LENGTH", str(LENGTH))


def write(path, text):
    os.makedirs(os.path.dirname(path), exist_ok=True)
    with open(path, "w") as file:
        file.write(text)


def make(folder):
    """Makes the programs, and returns their names and paths."""
    for name in CRATES:
        shutil.copytree(f"{HERE}/crates/{name}", f"{folder}/crates/{name}", ignore=shutil.ignore_patterns("out"))
    with open(f"{HERE}/crates.txt") as file:
        lines = [line for line in file if line.split(":")[0] in CRATES]
    write(f"{folder}/crates.txt", "".join(lines) + "online_speed: sota_units sota_hist sota_online\n")
    program = f"{folder}/crates/online_speed"
    write(f"{program}/src/main.rt", filled(MAIN))
    write(f"{program}/proofs/spans/Invariants.antt", PICKS)
    for function, loops in [("all_sums", ["turn"]), ("many_sums", ["block"])]:
        kept = KEPT.replace("FUNCTION", function) + "".join(LOOP.replace("NAME", name) for name in loops)
        write(f"{program}/proofs/{function}/Invariants.antt", kept)
    subprocess.run(["rt", "run"], cwd=program, check=True, stdout=subprocess.DEVNULL)
    made = {"": f"{program}/out/online_speed"}
    write(f"{folder}/sums.c", filled(C))
    for level in ("-O2", "-O3"):
        subprocess.run(["gcc", level, "sums.c", "-o", f"sums{level}"], cwd=folder, check=True)
        made[f" C {level}"] = f"{folder}/sums{level}"
    return made


def measure(made, again=3):
    """The least nanoseconds that one position took, by form, step and span; the sums must agree."""
    least, sums = {}, {}
    for _ in range(again):
        for name, path in made.items():
            for line in subprocess.run([path], check=True, capture_output=True, text=True).stdout.splitlines():
                form, step, span, time, check = line.split()
                key = (form + name, int(step), int(span))
                least[key] = min(least.get(key, float("inf")), int(time) / LENGTH)
                if sums.setdefault(key[1:], check) != check:
                    sys.exit(f"{form}{name} gives other sums at span {span}, one in {step}")
    return least


def main():
    given = sys.argv[1] if len(sys.argv) > 1 else None
    folder = given or tempfile.mkdtemp(prefix="online_speed_")
    try:
        least = measure(make(folder))
    finally:
        if not given:
            shutil.rmtree(folder, ignore_errors=True)
    forms = list(dict.fromkeys(form for form, _, _ in least))
    print("ns a position (in brackets, 10^9 products a second)")
    print("  span one in  masses " + " ".join(f"{form:>16}" for form in forms))
    for step in (1, 10):
        for span in SPANS:
            masses = sum(1 for p in range(span) if p % step == 0 or p == span - 1)
            times = [least[form, step, span] for form in forms]
            print(f"{span:6} {step:6} {masses:7} " + " ".join(f"{time:9.1f} ({masses / time:4.2f})" for time in times))


main()
