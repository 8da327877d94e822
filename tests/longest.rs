// How long the longest line is, for each number of bytes: by a search over all frames, bit after bit, that keeps for each check,
// last bit and run only the most bits that lead there. Written from the rule, and not from the proved code.
// usage: rustc --edition 2024 -O tests/longest.rs -o /tmp/longest && /tmp/longest
const CHECKS: usize = 1 << 15;

// The most bits put so far, by the last bit, by how many like it stand there (1 to 4), and by the check; none where no row leads.
type Most = Vec<[[Option<u32>; 5]; 2]>;

fn none() -> Most {
    vec![[[None; 5]; 2]; CHECKS]
}

fn next_check(check: usize, bit: usize) -> usize {
    let doubled = check * 2 % CHECKS;
    if check / 16384 == bit { doubled } else { doubled ^ 17817 }
}

// Puts one of `bits` wherever the check so far `takes` it, and a stuff bit behind the fifth like one; `check` is what the check is then.
fn put(most: &Most, bits: &[usize], takes: impl Fn(usize, usize) -> bool, check: impl Fn(usize, usize) -> usize) -> Most {
    let mut after = none();
    for (so_far, ends) in most.iter().enumerate() {
        for (last, runs) in ends.iter().enumerate() {
            for (run, count) in runs.iter().enumerate() {
                let Some(count) = count else { continue };
                for &bit in bits.iter().filter(|bit| takes(so_far, **bit)) {
                    let like = if bit == last { run + 1 } else { 1 };
                    let (last, run, put) = if like == 5 { (1 - bit, 1, 2) } else { (bit, like, 1) };
                    let place = &mut after[check(so_far, bit)][last][run];
                    *place = (*place).max(Some(count + put));
                }
            }
        }
    }
    after
}

fn longest(bytes: usize) -> u32 {
    let mut most = none();
    most[0][0][1] = Some(1);
    for place in 0..15 + 8 * bytes {
        let length_bit = [bytes >> (14 - place.min(14)) & 1];
        let bits: &[usize] = if (11..15).contains(&place) { &length_bit } else { &[0, 1] };
        most = put(&most, bits, |_, _| true, next_check);
    }
    for place in (0..15).rev() {
        most = put(&most, &[0, 1], |check, bit| check >> place & 1 == bit, |check, _| check);
    }
    let all = most.iter().flatten().flatten().flatten().max();
    all.expect("a frame has a line") + 7
}

fn main() {
    for bytes in 0..=8 {
        println!("{bytes} bytes: {} bits", longest(bytes));
    }
}
