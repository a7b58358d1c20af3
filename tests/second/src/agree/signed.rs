//! The signed read-out: numbers of every size written and fields of every sign digit read, bad digits in every place, and
//! fields of other lengths.

use super::{digest_line, drawn_bytes, mix_bytes};
use crate::bits::from_digits;
use crate::random::{mix, Random};
use crate::signed::{read_signed, write_signed};

/// A size at or just below 3, a power of ten or the greatest i64, or any.
fn drawn_size(a: u64, b: u64) -> u64 {
    let near = match b / 2 % 20 {
        0 => 3,
        19 => i64::MAX as u64,
        power => 10u64.pow(power as u32),
    };
    if b.is_multiple_of(2) {
        near - a % 4
    } else {
        a >> (b / 2 % 64)
    }
}

/// The low 63 bits of a size, or -1 less them: every i64 is one of these.
fn number(size: u64, minus: bool) -> i64 {
    let plain = (size % (1 << 63)) as i64;
    if minus {
        -1 - plain
    } else {
        plain
    }
}

fn drawn_length(x: u64) -> usize {
    if x.is_multiple_of(16) {
        (x / 16 % 21) as usize
    } else {
        8
    }
}

/// One time in two a good digit and any sign in the eighth byte, then any byte in one of the twenty.
fn spoil(field: &mut [u8], x: u64) {
    if x.is_multiple_of(2) {
        field[7] = from_digits((x / 2 % 10) as u8, (x / 32 % 16) as u8);
    }
    field[(x / 512 % 20) as usize] = (x >> 16) as u8;
}

/// How often each number was the answer to writing and to reading; 0 is written, 0 and 1 are minus and plus.
struct Counts {
    wrote: [u32; 34],
    read: [u32; 34],
}

/// The digest after a write, and the field after it.
fn write(digest: u64, number: i64, length: usize, field: &mut [u8], counts: &mut Counts) -> u64 {
    let answer = write_signed(number, &mut field[..length]).err().unwrap_or(0);
    counts.wrote[usize::from(answer)] += 1;
    mix_bytes(mix(digest, u64::from(answer)), field)
}

/// The digest after a read: the sign, and the number or -1 less it, or what refused it.
fn read(digest: u64, length: usize, field: &[u8], counts: &mut Counts) -> u64 {
    let digest = match read_signed(&field[..length]) {
        Ok(number @ ..0) => {
            counts.read[0] += 1;
            mix(mix(digest, 64), (-1 - number) as u64)
        }
        Ok(number) => {
            counts.read[1] += 1;
            mix(mix(digest, 65), number as u64)
        }
        Err(refusal) => {
            counts.read[usize::from(refusal)] += 1;
            mix(digest, u64::from(refusal))
        }
    };
    mix_bytes(digest, field)
}

pub fn text() -> String {
    let (mut random, mut digest, mut field) = (Random::new(67), 10, drawn_bytes(71, 20));
    let (mut counts, mut text) = (Counts { wrote: [0; 34], read: [0; 34] }, String::new());
    for k in 1..=20_000 {
        let [a, b, c] = std::array::from_fn(|_| random.next());
        let length = drawn_length(c >> 24);
        let number = number(drawn_size(a, b / 2), b.is_multiple_of(2));
        digest = write(digest, number, length, &mut field, &mut counts);
        spoil(&mut field, c);
        digest = read(digest, length, &field, &mut counts);
        if k % 2000 == 0 {
            text += &digest_line(k, digest);
        }
    }
    let Counts { wrote, read } = counts;
    text += &format!("written {}\nwrite refused 27 {}\nwrite refused 33 {}\n", wrote[0], wrote[27], wrote[33]);
    text += &format!("read minus {}\nread plus {}\n", read[0], read[1]);
    text + &format!("read refused 25 {}\nread refused 26 {}\nread refused 33 {}\n", read[25], read[26], read[33])
}
