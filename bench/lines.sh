#!/bin/sh
# How long a line takes to make: the proved maker, beside the same shape and a plain loop in Rust (lines.rs).
# Run it at the top of the repository, with nothing else running: bench/lines.sh
exec bench/measure.sh lines 'two makers' <<'END'
// A million lines, and the sum that lines.rs prints of the same ones.
#![tactic(auto)]

use frame::{Done, make_line};

fn main(rt: HostRuntime) -> anyhow::Result<()> {
    let mut room = [0u8; 125];
    let sum = all(&mut room);
    println!(rt; "{sum}")?;
    Ok(())
}

fn all(room: &mut [u8]) -> u64 {
    let mut sum = 0u64;
    let mut seed = 1u64;
    for _ in 0..1000000u64 {
        seed = seed.wrapping_mul(6364136223846793005).wrapping_add(1442695040888963407);
        sum = sum.wrapping_add(one(seed, room));
    }
    sum
}

fn one(seed: u64, room: &mut [u8]) -> u64 {
    let bytes = (seed >> 16).to_le_bytes();
    let data = bytes.get(0..((seed >> 8) % 9) as usize).unwrap_or(&[]);
    match make_line((seed >> 40) % 2048, data, room) {
        Done::Made(len) => len.wrapping_add(u64::from(*room.get((len / 2) as usize).unwrap_or(&0))),
        _ => 0,
    }
}
END
