//! The kernels of `bench kernels` in plain Rust with the same checks, as Arrow's libraries write them: validities by words
//! of 64 bits, values without a branch a slot. `kernels KERNEL ROWS TIMES`.

use indexmap::IndexSet;
use std::env::args;
use std::hint::black_box;

fn spread(place: u32) -> u32 {
    place.wrapping_mul(2_654_435_761)
}

/// Bits in words of 64, the first of them least significant; those past the last row are 0.
struct Bitmap(Vec<u64>);

impl Bitmap {
    fn new(rows: usize, bit: impl Fn(usize) -> bool) -> Bitmap {
        let word = |first: usize| (first..rows.min(first + 64)).fold(0, |word, i| word | u64::from(bit(i)) << (i - first));
        Bitmap((0..rows).step_by(64).map(word).collect())
    }

    fn get(&self, i: usize) -> bool {
        self.0[i / 64] >> (i % 64) & 1 == 1
    }

    /// The words of what is made of each two.
    fn with(&self, other: &Bitmap, both: impl Fn(u64, u64) -> u64) -> Bitmap {
        Bitmap(self.0.iter().zip(&other.0).map(|(a, b)| both(*a, *b)).collect())
    }

    fn zeros(&self, rows: usize) -> usize {
        rows - ones(self.0.iter().copied())
    }
}

/// Bits that come word by word, of which so many are used of each.
struct Bits {
    words: Vec<u64>,
    len: usize,
}

impl Bits {
    fn with_capacity(len: usize) -> Bits {
        Bits { words: Vec::with_capacity(len.div_ceil(64) + 1), len: 0 }
    }

    /// The first bits of the word, behind those that are there. The bits behind them are 0.
    fn push(&mut self, word: u64, bits: usize) {
        let used = self.len % 64;
        if used == 0 {
            self.words.push(word);
        } else {
            *self.words.last_mut().expect("a word in use") |= word << used;
            if used + bits > 64 {
                self.words.push(word >> (64 - used));
            }
        }
        self.len += bits;
    }
}

struct Numbers {
    validity: Bitmap,
    values: Vec<i64>,
}

struct ShortNumbers {
    validity: Bitmap,
    values: Vec<i32>,
}

struct Truths {
    validity: Bitmap,
    values: Bitmap,
}

struct Texts {
    validity: Bitmap,
    offsets: Vec<i32>,
    bytes: String,
}

impl Texts {
    fn get(&self, i: usize) -> &str {
        &self.bytes[self.offsets[i] as usize..self.offsets[i + 1] as usize]
    }
}

fn validity(rows: usize, salt: u32) -> Bitmap {
    Bitmap::new(rows, |i| !(i + salt as usize).is_multiple_of(20))
}

fn numbers(rows: usize, salt: u32) -> Numbers {
    let values = (0..rows as u32).map(|i| i64::from(spread(i.wrapping_add(salt)))).collect();
    Numbers { validity: validity(rows, salt), values }
}

fn short_numbers(rows: usize, salt: u32) -> ShortNumbers {
    let values = (0..rows as u32).map(|i| spread(i.wrapping_add(salt)) as i32).collect();
    ShortNumbers { validity: validity(rows, salt), values }
}

/// Rows in no order.
fn places(count: usize) -> Vec<u32> {
    (0..count as u32).map(|place| spread(place) % count as u32).collect()
}

fn truths(rows: usize, salt: u32) -> Truths {
    let byte = |i: usize| (spread((i as u32 / 8).wrapping_add(salt)) >> 24) as u8;
    Truths { validity: validity(rows, salt), values: Bitmap::new(rows, |i| byte(i) >> (i % 8) & 1 == 1) }
}

/// The digits of a number for each row.
fn digits(rows: usize, salt: u32, number: impl Fn(u32) -> u32) -> Texts {
    let mut offsets = vec![0];
    let mut bytes = String::new();
    for i in 0..rows as u32 {
        bytes += &number(i).to_string();
        offsets.push(bytes.len() as i32);
    }
    Texts { validity: validity(rows, salt), offsets, bytes }
}

fn texts(rows: usize, salt: u32) -> Texts {
    digits(rows, salt, |row| spread(row / 2 + salt % 2) % 1_000_000)
}

fn repeated_texts(rows: usize, salt: u32, distinct: u32) -> Texts {
    digits(rows, salt, |row| spread(row.wrapping_add(salt)) % distinct)
}

/// The sums, or the least row whose sum overflows.
fn add(a: &Numbers, b: &Numbers) -> Result<Numbers, usize> {
    let validity = a.validity.with(&b.validity, |a, b| a & b);
    let mut values = Vec::with_capacity(a.values.len());
    for (k, (a, b)) in a.values.chunks(64).zip(b.values.chunks(64)).enumerate() {
        let mut past = 0;
        for (a, b) in a.iter().zip(b) {
            let sum = a.wrapping_add(*b);
            past |= (a ^ sum) & (b ^ sum);
            values.push(sum);
        }
        if past < 0 {
            let overflows = |i: &usize| validity.get(64 * k + i) && a[*i].checked_add(b[*i]).is_none();
            if let Some(i) = (0..a.len()).find(overflows) {
                return Err(64 * k + i);
            }
        }
    }
    Ok(Numbers { validity, values })
}

/// The sums with one number, or the least row whose sum overflows.
fn add_number(a: &Numbers, number: i64) -> Result<Numbers, usize> {
    let mut values = Vec::with_capacity(a.values.len());
    for (k, numbers) in a.values.chunks(64).enumerate() {
        let mut past = 0;
        for value in numbers {
            let sum = value.wrapping_add(number);
            past |= (value ^ sum) & (number ^ sum);
            values.push(sum);
        }
        if past < 0 {
            let overflows = |i: &usize| a.validity.get(64 * k + i) && numbers[*i].checked_add(number).is_none();
            if let Some(i) = (0..numbers.len()).find(overflows) {
                return Err(64 * k + i);
            }
        }
    }
    Ok(Numbers { validity: Bitmap(a.validity.0.clone()), values })
}

fn greater_number(a: &Numbers, number: i64) -> Truths {
    let word = |numbers: &[i64]| numbers.iter().enumerate().fold(0, |word, (i, value)| word | u64::from(*value > number) << i);
    let values = Bitmap(a.values.chunks(64).map(word).collect());
    Truths { validity: Bitmap(a.validity.0.clone()), values }
}

fn less(a: &Numbers, b: &Numbers) -> Truths {
    let word = |(a, b): (&[i64], &[i64])| a.iter().zip(b).enumerate().fold(0, |word, (i, (a, b))| word | u64::from(a < b) << i);
    let values = Bitmap(a.values.chunks(64).zip(b.values.chunks(64)).map(word).collect());
    Truths { validity: a.validity.with(&b.validity, |a, b| a & b), values }
}

fn equal(a: &Texts, b: &Texts) -> Truths {
    let rows = a.offsets.len() - 1;
    let values = Bitmap::new(rows, |i| a.get(i) == b.get(i));
    Truths { validity: a.validity.with(&b.validity, |a, b| a & b), values }
}

fn and(a: &Truths, b: &Truths) -> Truths {
    let (mut validity, mut values) = (Vec::with_capacity(a.values.0.len()), Vec::with_capacity(a.values.0.len()));
    let sides = a.validity.0.iter().zip(&a.values.0).zip(b.validity.0.iter().zip(&b.values.0));
    for ((known_a, true_a), (known_b, true_b)) in sides {
        let both = known_a & true_a & known_b & true_b;
        validity.push(both | (known_a & !true_a) | (known_b & !true_b));
        values.push(both);
    }
    Truths { validity: Bitmap(validity), values: Bitmap(values) }
}

/// The numbers where the mask is true.
fn filter(a: &Numbers, mask: &Truths) -> Numbers {
    let mask = mask.validity.with(&mask.values, |known, value| known & value);
    let count = ones(mask.0.iter().copied());
    let mut validity = Bits::with_capacity(count);
    let mut values = Vec::with_capacity(count);
    for (k, word) in mask.0.iter().enumerate() {
        let numbers = &a.values[64 * k..];
        if *word == u64::MAX {
            values.extend_from_slice(&numbers[..64]);
            validity.push(a.validity.0[k], 64);
            continue;
        }
        let (mut left, mut valid, mut kept) = (*word, 0, 0);
        while left > 0 {
            let i = left.trailing_zeros() as usize;
            values.push(numbers[i]);
            valid |= (a.validity.0[k] >> i & 1) << kept;
            kept += 1;
            left &= left - 1;
        }
        if kept > 0 {
            validity.push(valid, kept);
        }
    }
    Numbers { validity: Bitmap(validity.words), values }
}

/// The numbers at the rows, or the least place of a row that isn't there.
fn take(a: &ShortNumbers, rows: &[u32]) -> Result<ShortNumbers, usize> {
    if let Some(j) = rows.iter().position(|row| *row as usize >= a.values.len()) {
        return Err(j);
    }
    let values = rows.iter().map(|row| a.values[*row as usize]).collect();
    let validity = Bitmap::new(rows.len(), |j| a.validity.get(rows[j] as usize));
    Ok(ShortNumbers { validity, values })
}

/// The texts at the rows, or the least place of a row that isn't there.
fn take_texts(a: &Texts, rows: &[u32]) -> Result<Texts, usize> {
    let count = a.offsets.len() - 1;
    if let Some(j) = rows.iter().position(|row| *row as usize >= count) {
        return Err(j);
    }
    let validity = Bitmap::new(rows.len(), |j| a.validity.get(rows[j] as usize));
    let mut offsets = Vec::with_capacity(rows.len() + 1);
    let mut bytes = String::new();
    offsets.push(0);
    for (j, row) in rows.iter().enumerate() {
        if validity.get(j) {
            bytes += a.get(*row as usize);
        }
        offsets.push(bytes.len().try_into().map_err(|_| j)?);
    }
    Ok(Texts { validity, offsets, bytes })
}

/// The places of the texts in a pool of their own, or the row whose text the pool can't have.
fn recode(a: &Texts) -> Result<ShortNumbers, usize> {
    let rows = a.offsets.len() - 1;
    let mut pool = IndexSet::new();
    let mut bytes = 0;
    let mut values = Vec::with_capacity(rows);
    for i in 0..rows {
        if !a.validity.get(i) {
            values.push(0);
            continue;
        }
        let text = a.get(i);
        let code = match pool.get_index_of(text) {
            Some(code) => code,
            None => {
                bytes += text.len();
                if bytes > i32::MAX as usize {
                    return Err(i);
                }
                pool.insert_full(text.to_string()).0
            }
        };
        values.push(code.try_into().map_err(|_| i)?);
    }
    Ok(ShortNumbers { validity: Bitmap(a.validity.0.clone()), values })
}

fn ones(words: impl Iterator<Item = u64>) -> usize {
    words.map(|word| word.count_ones() as usize).sum()
}

/// The result of the last of so many calls.
fn last_of<T>(times: u32, mut work: impl FnMut() -> T) -> T {
    let mut last = None;
    for _ in 0..times {
        last = Some(black_box(work()));
    }
    last.expect("some calls")
}

fn main() {
    let words: Vec<String> = args().collect();
    let rows: usize = words[2].parse().unwrap();
    let times: u32 = words[3].parse().unwrap();
    let nulls = match words[1].as_str() {
        "add" => {
            let (a, b) = (numbers(rows, 3), numbers(rows, 8));
            last_of(times, || add(black_box(&a), black_box(&b)).unwrap()).validity.zeros(rows)
        }
        "less" => {
            let (a, b) = (numbers(rows, 3), numbers(rows, 8));
            last_of(times, || less(black_box(&a), black_box(&b))).validity.zeros(rows)
        }
        "add-number" => {
            let a = numbers(rows, 3);
            last_of(times, || add_number(black_box(&a), black_box(1)).unwrap()).validity.zeros(rows)
        }
        "greater-number" => {
            let a = numbers(rows, 3);
            last_of(times, || greater_number(black_box(&a), black_box(5))).validity.zeros(rows)
        }
        "equal" => {
            let (a, b) = (texts(rows, 3), texts(rows, 8));
            last_of(times, || equal(black_box(&a), black_box(&b))).validity.zeros(rows)
        }
        "filter" => {
            let (a, b) = (numbers(rows, 3), truths(rows, 8));
            let result = last_of(times, || filter(black_box(&a), black_box(&b)));
            result.validity.zeros(result.values.len())
        }
        "take" => {
            let (a, b) = (short_numbers(rows, 3), places(rows));
            last_of(times, || take(black_box(&a), black_box(&b)).unwrap()).validity.zeros(rows)
        }
        "take-texts" => {
            let (a, b) = (texts(rows, 3), places(rows));
            last_of(times, || take_texts(black_box(&a), black_box(&b)).unwrap()).validity.zeros(rows)
        }
        "recode-few" | "recode-many" => {
            let a = repeated_texts(rows, 3, if words[1] == "recode-few" { 1_000 } else { 200_000 });
            last_of(times, || recode(black_box(&a)).unwrap()).validity.zeros(rows)
        }
        _ => {
            let (a, b) = (truths(rows, 3), truths(rows, 8));
            last_of(times, || and(black_box(&a), black_box(&b))).validity.zeros(rows)
        }
    };
    println!("{nulls}");
}
