// Lines read in plain Rust, to measure the proved reader against: in its own shape, as one loop over the bits, and by making the line
// again to compare with. Prints, for each, the best time for a line in nanoseconds, and a sum over all that was read, on which all
// readers must agree.
use std::hint::black_box;
use std::time::Instant;

const LINES: usize = 1_000;
const TIMES: usize = 1_000;
const TURNS: usize = 9;
const LONGEST: usize = 125;

fn step(check: u16, bit: bool) -> u16 {
    let doubled = (check << 1) & 32767;
    if (check >> 14 & 1 == 1) != bit { doubled ^ 17817 } else { doubled }
}

// A line, for the readers to read; also the second half of the reader that makes it again.
fn make(id: u64, data: &[u8], room: &mut [u8]) -> usize {
    let header = u128::from(id) * 16 + data.len() as u128;
    let plain = data.iter().fold(header, |number, byte| number * 256 + u128::from(*byte));
    let width = 15 + 8 * data.len() as u32;
    let check = (0..width).rev().fold(0, |check, place| step(check, plain >> place & 1 == 1));
    let (fields, count) = (plain << 15 | u128::from(check), width + 15);
    let (mut last, mut run, mut at) = (0, 1, 1);
    room[0] = 0;
    for place in (0..count).rev() {
        let bit = (fields >> place & 1) as u8;
        run = if bit == last { run + 1 } else { 1 };
        last = bit;
        room[at] = bit;
        at += 1;
        if run == 5 {
            last = 1 - bit;
            run = 1;
            room[at] = last;
            at += 1;
        }
    }
    room[at..at + 7].fill(1);
    at + 7
}

type Letter = (u64, u64, u64);

fn letter(fields: u128, len: u32, end: usize, room: &mut [u8]) -> Letter {
    let plain = fields >> 15;
    for place in 0..len {
        room[place as usize] = (plain >> (8 * (len - 1 - place))) as u8;
    }
    ((plain >> (4 + 8 * len)) as u64, u64::from(len), end as u64)
}

// A run, and the first bits of the fields, as the proved code has them.
#[derive(Clone, Copy)]
struct Run {
    bit: bool,
    count: u8,
}

impl Run {
    fn new(bit: bool) -> Run {
        Run { bit, count: 1 }
    }

    fn with(self, bit: bool) -> Run {
        if self.bit == bit { Run { bit, count: self.count.saturating_add(1) } } else { Run::new(bit) }
    }
}

#[derive(Clone, Copy)]
struct Prefix {
    number: u128,
    count: u32,
    len: u32,
    check: u16,
}

// The proved reader's shape: a value for what was heard, and a function that takes it and one bit more.
#[derive(Clone, Copy)]
struct Reader {
    fields: Prefix,
    run: Run,
    end: usize,
}

enum Heard {
    Within(Reader),
    Line(Prefix),
}

impl Prefix {
    fn push(self, bit: bool) -> Option<Prefix> {
        let mut len = self.len;
        if self.count >= 11 && self.count < 15 {
            len = 2 * len + u32::from(bit);
            if len << (14 - self.count) > 8 {
                return None;
            }
        }
        if self.count >= 15 + 8 * self.len && bit != (self.check >> 14 & 1 == 1) {
            return None;
        }
        Some(Prefix { number: 2 * self.number + u128::from(bit), count: self.count + 1, len, check: step(self.check, bit) })
    }
}

impl Reader {
    fn hear(self, bit: bool) -> Option<Heard> {
        if self.run.count == 5 {
            if bit == self.run.bit {
                return None;
            }
            Some(Heard::Within(Reader { run: Run::new(bit), ..self }))
        } else if self.fields.count == 30 + 8 * self.fields.len {
            if !bit {
                return None;
            }
            if self.end == 6 {
                return Some(Heard::Line(self.fields));
            }
            Some(Heard::Within(Reader { end: self.end + 1, ..self }))
        } else {
            let fields = self.fields.push(bit)?;
            Some(Heard::Within(Reader { fields, run: self.run.with(bit), end: 0 }))
        }
    }
}

fn are_bits(bits: &[u8]) -> bool {
    bits.iter().all(|bit| *bit <= 1)
}

fn by_reader(bits: &[u8], room: &mut [u8]) -> Option<Letter> {
    if !are_bits(bits) || bits.first() != Some(&0) {
        return None;
    }
    let fields = Prefix { number: 0, count: 0, len: 0, check: 0 };
    let mut reader = Reader { fields, run: Run::new(false), end: 0 };
    for (place, bit) in bits[1..].iter().enumerate() {
        match reader.hear(bit % 2 == 1)? {
            Heard::Within(next) => reader = next,
            Heard::Line(fields) => return Some(letter(fields.number, fields.len, place + 2, room)),
        }
    }
    None
}

// What one would write without that shape: one loop, with all it knows in variables.
fn by_loop(bits: &[u8], room: &mut [u8]) -> Option<Letter> {
    if !are_bits(bits) || bits.first() != Some(&0) {
        return None;
    }
    let (mut fields, mut count, mut width, mut check) = (0u128, 0, 94, 0);
    let (mut last, mut run, mut place) = (0, 1, 1);
    while count < width || run == 5 {
        let bit = *bits.get(place)?;
        place += 1;
        if run == 5 {
            if bit == last {
                return None;
            }
            (last, run) = (bit, 1);
            continue;
        }
        run = if bit == last { run + 1 } else { 1 };
        last = bit;
        fields = fields << 1 | u128::from(bit);
        check = step(check, bit == 1);
        count += 1;
        if count == 15 {
            let len = fields as u32 % 16;
            if len > 8 {
                return None;
            }
            width = 30 + 8 * len;
        }
    }
    if check != 0 || !bits.get(place..place + 7)?.iter().all(|bit| *bit == 1) {
        return None;
    }
    Some(letter(fields, (width - 30) / 8, place + 7, room))
}

// Stuff bits taken out, the frame guessed from what is left, and its line made and compared.
fn by_making(bits: &[u8], room: &mut [u8]) -> Option<Letter> {
    if !are_bits(bits) {
        return None;
    }
    let (mut fields, mut count, mut width) = (0u128, 0, 94);
    let (mut last, mut run) = (0, 1);
    for bit in bits.get(1..)? {
        if run != 5 {
            fields = fields << 1 | u128::from(*bit);
            count += 1;
            if count == 15 {
                let len = fields as u32 % 16;
                if len > 8 {
                    return None;
                }
                width = 30 + 8 * len;
            }
            if count == width {
                break;
            }
        }
        run = if *bit == last { run + 1 } else { 1 };
        last = *bit;
    }
    if count < width {
        return None;
    }
    let found = letter(fields, (width - 30) / 8, 0, room);
    let mut line = [0u8; LONGEST];
    let end = make(found.0, &room[..found.1 as usize], &mut line);
    (bits.get(..end)? == &line[..end]).then_some((found.0, found.1, end as u64))
}

fn run(name: &str, read: fn(&[u8], &mut [u8]) -> Option<Letter>, lines: &[u8]) {
    let mut best = u128::MAX;
    let mut sum = 0;
    for _ in 0..TURNS {
        let mut room = [0u8; 8];
        sum = 0u64;
        let begin = Instant::now();
        for _ in 0..TIMES {
            for line in lines.chunks(LONGEST) {
                if let Some((name, len, end)) = read(black_box(line), &mut room) {
                    sum += name + len + end;
                }
            }
        }
        best = best.min(begin.elapsed().as_nanos());
    }
    println!("{name}: {} ns a line, sum {sum}", best / (LINES * TIMES) as u128);
}

fn main() {
    let mut lines = vec![1u8; LINES * LONGEST];
    let mut seed = 1u64;
    for line in lines.chunks_mut(LONGEST) {
        seed = seed.wrapping_mul(6364136223846793005).wrapping_add(1442695040888963407);
        let bytes = (seed >> 16).to_le_bytes();
        make((seed >> 40) % 2048, &bytes[..(seed >> 8) as usize % 9], line);
    }
    run("Rust, the same shape", by_reader, &lines);
    run("Rust, one loop", by_loop, &lines);
    run("Rust, made again and compared", by_making, &lines);
}
