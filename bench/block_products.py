#!/usr/bin/env python3
"""Measures products of blocks: how many a second `product_plain` and `product_fold` make, beside plain C of the same work.

    bench/block_products.py [FOLDER]

The program on the Rattle side has to be a crate, so it is made in a scratch folder (FOLDER, or one of its own that is
removed afterwards) from copies of this repository's crates. That proves and builds it, which takes a minute or more.
The C side is compiled by gcc -O2 and -O3, with the plain product written in two ways: row by row, as it is usually
written, and coefficient by coefficient. Its folded product is the same algorithm with either below length 33.
Each time is the least of many, in processor time. Needs `rt` and `gcc` on the path.
"""
import os
import shutil
import subprocess
import sys
import tempfile

HERE = os.path.dirname(os.path.dirname(os.path.abspath(__file__)))
CRATES = ["sota_units", "sota_block"]

MAIN = """\
// Times products of blocks of lengths 16 to 4,096.
#![tactic(auto)]
ghost use Rattle.std.specs.Prelude.{◌≡◌, ℕ, ◌+◌, ◌*◌, ◌^◌, ◌<◌, ◌≤◌, length, sum, All};
ghost use Rattle.sota_units.specs.Rounding.{ONE, SCALE_LIMIT};
ghost use Rattle.sota_block.specs.Product.{IsBlockLength};

use sota_block::{product_fold, product_plain};
use sota_units::Steps;
use std::io;
use std::marker::Brand;
use std::sync::ledger::{Blank, Ledger};
use std::time::CpuClock;

fn many_plain<M: Ledger>(rounds: u64, kernel: &[u64], values: &[u128], into: &mut [u128], blank: Blank)
    requires name { blank.name ≡ M.name }
    requires parts { blank.parts ≡ M.parts }
    requires some { 0 < blank.parts }
    requires block { IsBlockLength (length kernel.now) }
    requires same_length { length values.now ≡ length kernel.now }
    requires masses { sum kernel.now ≤ SCALE_LIMIT }
    requires values { All (λ v. v ≤ ONE) values.now }
    requires room { length into.old ≡ 2 * length kernel.now }
{
    let mut products = Steps::<M>::new(blank);
    for _ in 0..rounds {
        product_plain(kernel, values, into, &mut products);
    }
}

fn many_folded<M: Ledger>(
    rounds: u64,
    kernel: &[u64],
    values: &[u128],
    into: &mut [u128],
    scratch: &mut [u128],
    folded: &mut [u64],
    blank: Blank,
)
    requires name { blank.name ≡ M.name }
    requires parts { blank.parts ≡ M.parts }
    requires some { 0 < blank.parts }
    requires block { IsBlockLength (length kernel.now) }
    requires same_length { length values.now ≡ length kernel.now }
    requires masses { sum kernel.now ≤ SCALE_LIMIT }
    requires values { All (λ v. v ≤ ONE) values.now }
    requires room { length into.old ≡ 2 * length kernel.now }
    requires scratch_room { 3 * length kernel.now ≤ length scratch.old }
    requires folded_room { length kernel.now ≤ length folded.old }
{
    let mut products = Steps::<M>::new(blank);
    for _ in 0..rounds {
        product_fold(kernel, values, into, scratch, folded, &mut products);
    }
}

// Prints the length, the rounds and the nanoseconds that they took with either call, ten times.
fn repeat(
    rt: &HostRuntime,
    rounds: u64,
    kernel: &[u64],
    values: &[u128],
    into: &mut [u128],
    scratch: &mut [u128],
    folded: &mut [u64],
) -> io::Result<()>
    requires block { IsBlockLength (length kernel.now) }
    requires same_length { length values.now ≡ length kernel.now }
    requires masses { sum kernel.now ≤ SCALE_LIMIT }
    requires values { All (λ v. v ≤ ONE) values.now }
    requires room { length into.old ≡ 2 * length kernel.now }
    requires scratch_room { 3 * length kernel.now ≤ length scratch.old }
    requires folded_room { length kernel.now ≤ length folded.old }
{
    let length = kernel.len();
    for _ in 0..10 {
        let start = rt.thread_cpu_time()?.as_nanos();
        many_plain::<Brand>(rounds, kernel, values, into, Blank::new(1));
        let plain = rt.thread_cpu_time()?.as_nanos();
        many_folded::<Brand>(rounds, kernel, values, into, scratch, folded, Blank::new(1));
        let end = rt.thread_cpu_time()?.as_nanos();
        println!(rt; "{length} {rounds} {} {}", plain.saturating_sub(start), end.saturating_sub(plain))?;
    }
    Ok(())
}

// The time does not depend on the masses and the values, so each block has one of either.
fn measure(rt: &HostRuntime, r: u32) -> io::Result<()>
    requires { r ≤ 16 }
{
    let length = 1usize << r;
    let alloc = rt.alloc();
    let kernel = vec![in alloc; 15_000u64; length]?;
    let values = vec![in alloc; 999_999_999_999_999_999u128; length]?;
    let mut into = vec![in alloc; 0u128; 2 * length]?;
    let mut scratch = vec![in alloc; 0u128; 3 * length]?;
    let mut folded = vec![in alloc; 0u64; length]?;
    let rounds = 40_000_000u64 >> (2 * r);
    repeat(rt, rounds, &kernel, &values, &mut into, &mut scratch, &mut folded)
}

fn main(rt: HostRuntime) -> io::Result<()> {
    for r in 4..13 {
        measure(&rt, r)?;
    }
    Ok(())
}
"""

PICKS = """\
use Rattle.block_speed.proofs.repeat.Given as goal

abbrev pub ghosts-many_plain : goal.ghosts-many_plain
ghosts-many_plain a = record { name = a.blank.name; parts = a.blank.parts }

abbrev pub ghosts-many_folded : goal.ghosts-many_folded
ghosts-many_folded a = record { name = a.blank.name; parts = a.blank.parts }
"""

FEW = """\
use Rattle.std.proofs.Common.{◌≡◌, ℕ, ◌^◌, ◌≤◌, List, replicate, sum, rules, arith}
use Rattle.std.proofs.lemmas.List.{length-replicate}
use Rattle.std.proofs.lemmas.List.Elements.{All-replicate}
use Rattle.std.proofs.lemmas.List.Sums.{sum_by-le}
use Rattle.std.proofs.Math.Nat.{pow-le-pow_right}
use Rattle.sota_units.specs.Rounding.{SCALE_LIMIT}
use Rattle.block_speed.proofs.measure.Goals as goal

few : (n : ℕ) (xs : List ℕ) → xs ≡ replicate n 15000 → n ≤ 65536 → sum xs ≤ SCALE_LIMIT
few n xs same short =
    rw same (omega (arith, sum_by-le (λ x. x) 15000 (replicate n 15000) (All-replicate (λ x. x ≤ 15000) n 15000 (omega arith)), length-replicate {A = ℕ} n 15000))

pub repeat-requires-clause-masses : goal.repeat-requires-clause-masses
repeat-requires-clause-masses c =
    let short : 2 ^ c.args.r ≤ 65536 = pow-le-pow_right {n = 2} (omega arith) {i = c.args.r} {j = 16} c.requires in
    few (2 ^ c.args.r) c.deref.result.now (search rules) short
"""

C = r"""
#include <stdint.h>
#include <stdio.h>
#include <stdlib.h>
#include <string.h>
#include <time.h>

typedef unsigned __int128 u128;
typedef uint64_t u64;

__attribute__((noinline)) static void rows(const u64 *kernel, const u128 *values, u128 *into, size_t n) {
    memset(into, 0, 2 * n * sizeof(u128));
    for (size_t b = 0; b < n; b++)
        for (size_t a = 0; a < n; a++)
            into[a + b] += (u128)kernel[b] * values[a];
}

__attribute__((noinline)) static void coefficients(const u64 *kernel, const u128 *values, u128 *into, size_t n) {
    for (size_t k = 0; k < n; k++) {
        u128 sum = 0;
        for (size_t b = 0; b <= k; b++)
            sum += (u128)kernel[b] * values[k - b];
        into[k] = sum;
        sum = 0;
        for (size_t b = k + 1; b < n; b++)
            sum += (u128)kernel[b] * values[n + k - b];
        into[n + k] = sum;
    }
}

static void (*plain)(const u64 *, const u128 *, u128 *, size_t);

__attribute__((noinline)) static void fold(const u64 *kernel, const u128 *values, u128 *into, u128 *scratch, u64 *folded, size_t n) {
    if (n <= 32) {
        plain(kernel, values, into, n);
        return;
    }
    size_t half = n / 2;
    u128 *middle = scratch + half;
    fold(kernel, values, into, scratch, folded, half);
    fold(kernel + half, values + half, into + n, scratch, folded, half);
    for (size_t i = 0; i < half; i++)
        folded[i] = kernel[i] + kernel[half + i];
    for (size_t i = 0; i < half; i++)
        scratch[i] = values[i] + values[half + i];
    fold(folded, scratch, middle, scratch + half + n, folded + half, half);
    for (size_t i = 0; i < n; i++)
        middle[i] -= into[i] + into[n + i];
    for (size_t i = 0; i < n; i++)
        into[half + i] += middle[i];
}

static double now(void) {
    struct timespec t;
    clock_gettime(CLOCK_THREAD_CPUTIME_ID, &t);
    return t.tv_sec * 1e9 + t.tv_nsec;
}

int main(int count, char **words) {
    plain = count > 1 && words[1][0] == 'r' ? rows : coefficients;
    for (int r = 4; r < 13; r++) {
        size_t n = (size_t)1 << r;
        u64 *kernel = malloc(8 * n), *folded = malloc(8 * n);
        u128 *values = malloc(16 * n), *into = malloc(32 * n), *scratch = malloc(48 * n);
        for (size_t i = 0; i < n; i++) {
            kernel[i] = 15000;
            values[i] = 999999999999999999;
        }
        long rounds = 40000000 >> (2 * r);
        for (int again = 0; again < 10; again++) {
            double start = now();
            for (long i = 0; i < rounds; i++)
                plain(kernel, values, into, n);
            double middle = now();
            for (long i = 0; i < rounds; i++)
                fold(kernel, values, into, scratch, folded, n);
            double end = now();
            printf("%zu %ld %.0f %.0f\n", n, rounds, middle - start, end - middle);
        }
        free(kernel), free(folded), free(values), free(into), free(scratch);
    }
}
"""


def write(path, text):
    os.makedirs(os.path.dirname(path), exist_ok=True)
    with open(path, "w") as file:
        file.write(text)


def make(folder):
    """Makes the programs, and returns their names and command lines."""
    for name in CRATES:
        shutil.copytree(f"{HERE}/crates/{name}", f"{folder}/crates/{name}", ignore=shutil.ignore_patterns("out"))
    with open(f"{HERE}/crates.txt") as file:
        lines = [line for line in file if line.split(":")[0] in CRATES]
    write(f"{folder}/crates.txt", "".join(lines) + "block_speed: sota_units sota_block\n")
    program = f"{folder}/crates/block_speed"
    write(f"{program}/src/main.rt", MAIN)
    write(f"{program}/proofs/repeat/Invariants.antt", PICKS)
    write(f"{program}/proofs/measure/Answers.antt", FEW)
    subprocess.run(["rt", "run"], cwd=program, check=True, stdout=subprocess.DEVNULL)
    made = {"Rattle": [f"{program}/out/block_speed"]}
    write(f"{folder}/products.c", C)
    for level in ("-O2", "-O3"):
        subprocess.run(["gcc", level, "products.c", "-o", f"products{level}"], cwd=folder, check=True)
        for form in ("rows", "coefficients"):
            made[f"C {level} {form}"] = [f"{folder}/products{level}", form]
    return made


def measure(made, again=3):
    """The least nanoseconds that one product took, by program, length and call."""
    least = {}
    for _ in range(again):
        for name, words in made.items():
            for line in subprocess.run(words, check=True, capture_output=True, text=True).stdout.splitlines():
                length, rounds, plain, folded = (int(word) for word in line.split())
                for call, time in (("plain", plain), ("folded", folded)):
                    key = (name, length, call)
                    least[key] = min(least.get(key, float("inf")), time / rounds)
    return least


def main():
    given = sys.argv[1] if len(sys.argv) > 1 else None
    folder = given or tempfile.mkdtemp(prefix="block_speed_")
    try:
        made = make(folder)
        least = measure(made)
    finally:
        if not given:
            shutil.rmtree(folder, ignore_errors=True)
    lengths = sorted({length for _, length, _ in least})
    for call in ("plain", "folded"):
        print(f"\n{call} products a second, and the Rattle speed over that of the C loop by rows and of the fastest C")
        print("length " + " ".join(f"{name:>20}" for name in made) + "   to rows  to fastest")
        for length in lengths:
            times = [least[name, length, call] for name in made]
            by_rows = min(least[f"C {level} rows", length, call] for level in ("-O2", "-O3"))
            speeds = " ".join(f"{1e9 / time:20,.0f}" for time in times)
            print(f"{length:6} {speeds} {by_rows / times[0]:9.2f} {min(times[1:]) / times[0]:11.2f}")


main()
