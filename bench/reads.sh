#!/bin/sh
# How long a line takes to read: the proved reader, beside the same shape, a plain loop and a reader that makes the line again, in Rust
# (reads.rs). Run it at the top of the repository, with nothing else running: bench/reads.sh
exec bench/measure.sh reads 'bit by bit' <<'END'
// A thousand lines made once and each read a thousand times, and the sum that reads.rs prints of the same ones.
#![tactic(auto)]

use frame::{Done, make_line};
use reader::read_line;

fn main(rt: HostRuntime) -> anyhow::Result<()> {
    let mut lines = Vec::new(rt.alloc());
    let mut seed = 1u64;
    for _ in 0..1000u64 {
        seed = seed.wrapping_mul(6364136223846793005).wrapping_add(1442695040888963407);
        let mut line = [1u8; 125];
        make(seed, &mut line);
        lines.extend_from_slice(&line)?;
    }
    let mut room = [0u8; 8];
    let sum = often(&lines, &mut room);
    println!(rt; "{sum}")?;
    Ok(())
}

fn make(seed: u64, room: &mut [u8]) {
    let bytes = (seed >> 16).to_le_bytes();
    let data = bytes.get(0..((seed >> 8) % 9) as usize).unwrap_or(&[]);
    let _ = make_line((seed >> 40) % 2048, data, room);
}

fn often(lines: &[u8], room: &mut [u8]) -> u64 {
    let mut sum = 0u64;
    for _ in 0..1000u64 {
        sum = sum.wrapping_add(all(lines, room));
    }
    sum
}

fn all(lines: &[u8], room: &mut [u8]) -> u64 {
    let mut sum = 0u64;
    for line in lines.chunks(125) {
        sum = sum.wrapping_add(one(line, room));
    }
    sum
}

fn one(line: &[u8], room: &mut [u8]) -> u64 {
    match read_line(line, room) {
        Done::Read(name, len, end) => name.wrapping_add(len).wrapping_add(end),
        _ => 0,
    }
}
END
