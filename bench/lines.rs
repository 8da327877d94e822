// Lines made in plain Rust, to measure the proved maker against: once in its own shape, and once as a single loop.
// Prints, for each, the best time for a line in nanoseconds, and a sum over all lines that both makers must agree on.
use std::hint::black_box;
use std::time::Instant;

const FRAMES: u64 = 1_000_000;
const TURNS: usize = 9;
const LONGEST: usize = 125;

static TABLE: [u16; 256] = table();

const fn table() -> [u16; 256] {
    let mut table = [0u16; 256];
    let mut byte = 0;
    while byte < 256 {
        let mut check = (byte as u16) << 7;
        let mut turn = 0;
        while turn < 8 {
            check = if check & 16384 != 0 { (check << 1) & 32767 ^ 17817 } else { check << 1 };
            turn += 1;
        }
        table[byte] = check;
        byte += 1;
    }
    table
}

fn check(id: u64, data: &[u8]) -> u16 {
    let header = [(id / 16) as u8, (id % 16 * 16) as u8 + data.len() as u8];
    header.iter().chain(data).fold(0u16, |check, byte| {
        (check % 128 * 256) ^ TABLE[((check / 128) as u8 ^ byte) as usize]
    })
}

fn fields(id: u64, data: &[u8]) -> (u128, u32) {
    let header = u128::from(id) * 16 + data.len() as u128;
    let plain = data.iter().fold(header, |number, byte| number * 256 + u128::from(*byte));
    (plain * 32768 + u128::from(check(id, data)), 30 + 8 * data.len() as u32)
}

// A row and a run, as the proved code has them.
#[derive(Clone, Copy)]
struct Row<T, const N: usize> {
    places: [T; N],
    len: usize,
}

impl<T: Copy + Default, const N: usize> Row<T, N> {
    fn new() -> Self {
        Row { places: [T::default(); N], len: 0 }
    }

    fn push(&mut self, value: T) -> Result<(), ()> {
        if self.len == N {
            return Err(());
        }
        self.places[self.len] = value;
        self.len += 1;
        Ok(())
    }

    fn extend_from_slice(&mut self, values: &[T]) -> Result<(), ()> {
        if values.len() > N - self.len {
            return Err(());
        }
        let end = self.len + values.len();
        self.places[self.len..end].copy_from_slice(values);
        self.len = end;
        Ok(())
    }

    fn as_slice(&self) -> &[T] {
        &self.places[..self.len]
    }
}

#[derive(Clone, Copy)]
struct Run {
    bit: bool,
    count: u8,
}

impl Run {
    fn with(self, bit: bool) -> Run {
        if self.bit == bit { Run { bit, count: self.count.saturating_add(1) } } else { Run { bit, count: 1 } }
    }
}

struct Fields {
    number: u128,
    width: u32,
}

impl Iterator for Fields {
    type Item = bool;

    fn next(&mut self) -> Option<bool> {
        self.width = self.width.checked_sub(1)?;
        Some(self.number / (1 << self.width) % 2 == 1)
    }
}

// The proved maker's shape: two makers that call each other, over one struct.
struct Maker {
    fields: Fields,
    run: Run,
    bits: Row<bool, LONGEST>,
}

impl Maker {
    fn put_row(&mut self) {
        let Some(bit) = self.fields.next() else { return };
        self.put(bit);
        self.put_stuff_bit();
    }

    fn put_stuff_bit(&mut self) {
        if self.run.count == 5 {
            self.put(!self.run.bit);
        }
        self.put_row();
    }

    fn put(&mut self, bit: bool) {
        self.run = self.run.with(bit);
        self.bits.push(bit).unwrap();
    }
}

fn by_makers(id: u64, data: &[u8], room: &mut [u8]) -> usize {
    let (number, width) = fields(id, data);
    let mut maker = Maker { fields: Fields { number, width }, run: Run { bit: false, count: 1 }, bits: Row::new() };
    maker.bits.push(false).unwrap();
    maker.put_row();
    maker.bits.extend_from_slice(&[true; 7]).unwrap();
    let line = maker.bits;
    for (place, bit) in room.iter_mut().zip(line.as_slice()) {
        *place = u8::from(*bit);
    }
    line.len
}

// What one would write without the proved maker's shape: one loop that writes to the room.
fn by_loop(id: u64, data: &[u8], room: &mut [u8]) -> usize {
    let (fields, count) = fields(id, data);
    let (mut last, mut run, mut at) = (0, 1, 1);
    room[0] = 0;
    for place in (0..count).rev() {
        let bit = (fields >> place & 1) as u8;
        run = if bit == last { run + 1 } else { 1 };
        last = bit;
        room[at] = bit;
        at += 1;
        if run == 5 {
            last = 1 - bit;
            run = 1;
            room[at] = last;
            at += 1;
        }
    }
    room[at..at + 7].fill(1);
    at + 7
}

fn run(name: &str, make: fn(u64, &[u8], &mut [u8]) -> usize) {
    let mut best = u128::MAX;
    let mut sum = 0;
    for _ in 0..TURNS {
        let mut room = [0u8; LONGEST];
        let mut seed = 1u64;
        sum = 0;
        let begin = Instant::now();
        for _ in 0..FRAMES {
            seed = seed.wrapping_mul(6364136223846793005).wrapping_add(1442695040888963407);
            let bytes = (seed >> 16).to_le_bytes();
            let data = &bytes[..(seed >> 8) as usize % 9];
            let len = make(black_box((seed >> 40) % 2048), black_box(data), &mut room);
            sum += len as u64 + u64::from(room[len / 2]);
        }
        best = best.min(begin.elapsed().as_nanos());
    }
    println!("{name}: {} ns a line, sum {sum}", best / u128::from(FRAMES));
}

fn main() {
    run("Rust, two makers", by_makers);
    run("Rust, one loop", by_loop);
}
