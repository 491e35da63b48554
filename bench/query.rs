//! The queries of `bench query` in plain Rust, each written by hand over the same columns, in pieces on scoped threads.
//! `query QUERY BATCHES ROWS TIMES PIECES`.

use indexmap::IndexMap;
use std::env::args;
use std::hint::black_box;
use std::ops::Range;
use std::thread::scope;

fn spread(place: u32) -> u32 {
    place.wrapping_mul(2_654_435_761)
}

/// Bits in words of 64, the first of them least significant.
struct Bitmap(Vec<u64>);

impl Bitmap {
    fn new(rows: usize, bit: impl Fn(usize) -> bool) -> Bitmap {
        let word = |first: usize| (first..rows.min(first + 64)).fold(0, |word, i| word | u64::from(bit(i)) << (i - first));
        Bitmap((0..rows).step_by(64).map(word).collect())
    }

    fn get(&self, i: usize) -> bool {
        self.0[i / 64] >> (i % 64) & 1 == 1
    }
}

struct Numbers<T> {
    validity: Bitmap,
    values: Vec<T>,
}

struct Dictionary {
    validity: Bitmap,
    codes: Vec<i32>,
    texts: Vec<String>,
}

struct Batch {
    k: Dictionary,
    g: Numbers<i32>,
    v: Numbers<i64>,
}

impl Batch {
    fn new(rows: usize, first: u32) -> Batch {
        let valid = |salt: u32| Bitmap::new(rows, |i| !(i + salt as usize).is_multiple_of(20));
        let of = |salt: u32, distinct: u32| (0..rows as u32).map(move |i| spread(i.wrapping_add(first).wrapping_add(salt)) % distinct);
        Batch {
            k: Dictionary {
                validity: valid(1),
                codes: of(1, 1000).map(|code| code as i32).collect(),
                texts: (0..1000).map(|code: u32| code.to_string()).collect(),
            },
            g: Numbers { validity: valid(2), values: of(2, 100_000).map(|g| g as i32).collect() },
            v: Numbers { validity: valid(3), values: of(3, 1 << 31).map(i64::from).collect() },
        }
    }

    fn rows(&self) -> usize {
        self.v.values.len()
    }
}

/// Some neighbouring rows of a batch.
type Slice<'a> = (&'a Batch, Range<usize>);

/// The rows of a piece: those of all batches are cut into so many.
fn piece(batches: &[Batch], pieces: usize, place: usize) -> Vec<Slice<'_>> {
    let all: usize = batches.iter().map(Batch::rows).sum();
    let (from, to) = (all * place / pieces, all * (place + 1) / pieces);
    let mut before = 0;
    let mut slices = Vec::new();
    for batch in batches {
        let within = |at: usize| at.saturating_sub(before).min(batch.rows());
        slices.push((batch, within(from)..within(to)));
        before += batch.rows();
    }
    slices
}

/// What is known of each piece, in their order.
fn of_pieces<'a, X: Send>(batches: &'a [Batch], pieces: usize, look: impl Fn(Vec<Slice<'a>>) -> X + Sync) -> Vec<X> {
    if pieces == 1 {
        return vec![look(piece(batches, 1, 0))];
    }
    scope(|threads| {
        let look = &look;
        let work: Vec<_> = (0..pieces).map(|place| threads.spawn(move || look(piece(batches, pieces, place)))).collect();
        work.into_iter().map(|work| work.join().expect("a piece")).collect()
    })
}

type Sums<'a> = IndexMap<Option<&'a str>, Option<i128>>;

fn sums_of<'a>(slices: Vec<Slice<'a>>) -> Sums<'a> {
    let mut groups: IndexMap<Option<&str>, ()> = IndexMap::new();
    let mut sums: Vec<Option<i128>> = Vec::new();
    for (batch, rows) in slices {
        let mut known: Vec<Option<usize>> = vec![None; batch.k.texts.len()];
        let mut null: Option<usize> = None;
        for i in rows {
            let code = batch.k.codes[i] as usize;
            let valid = batch.k.validity.get(i);
            let place = if valid { &mut known[code] } else { &mut null };
            let group = *place.get_or_insert_with(|| {
                let (group, _) = groups.insert_full(valid.then(|| batch.k.texts[code].as_str()), ());
                sums.resize(groups.len(), None);
                group
            });
            if batch.v.validity.get(i) {
                sums[group] = Some(sums[group].unwrap_or(0) + i128::from(batch.v.values[i]));
            }
        }
    }
    groups.into_keys().zip(sums).collect()
}

/// `sum(v)` by `k`: how many groups there are, and the sums that are there, added up.
fn sums_by_text(batches: &[Batch], pieces: usize) -> (usize, i128) {
    let mut parts = of_pieces(batches, pieces, sums_of).into_iter();
    let mut all = parts.next().expect("a piece");
    for (key, sum) in parts.flatten() {
        let cell = all.entry(key).or_insert(None);
        if let Some(sum) = sum {
            *cell = Some(cell.unwrap_or(0) + sum);
        }
    }
    (all.len(), all.values().flatten().sum())
}

#[derive(Clone, Copy)]
struct Ends {
    rows: u64,
    ends: Option<(i64, i64)>,
}

fn farther(ends: Option<(i64, i64)>, (a, b): (i64, i64)) -> Option<(i64, i64)> {
    Some(ends.map_or((a, b), |(least, greatest)| (least.min(a), greatest.max(b))))
}

fn ends_of(slices: Vec<Slice<'_>>) -> IndexMap<Option<i32>, Ends> {
    let mut groups: IndexMap<Option<i32>, Ends> = IndexMap::new();
    for (batch, rows) in slices {
        for i in rows {
            let key = batch.g.validity.get(i).then(|| batch.g.values[i]);
            let cell = groups.entry(key).or_insert(Ends { rows: 0, ends: None });
            cell.rows += 1;
            if batch.v.validity.get(i) {
                cell.ends = farther(cell.ends, (batch.v.values[i], batch.v.values[i]));
            }
        }
    }
    groups
}

/// `rows`, `least(v)`, `greatest(v)` by `g`: how many groups there are, and all these added up.
fn ends_by_number(batches: &[Batch], pieces: usize) -> (usize, i128) {
    let mut parts = of_pieces(batches, pieces, ends_of).into_iter();
    let mut all = parts.next().expect("a piece");
    for (key, part) in parts.flatten() {
        let cell = all.entry(key).or_insert(Ends { rows: 0, ends: None });
        cell.rows += part.rows;
        cell.ends = part.ends.map_or(cell.ends, |ends| farther(cell.ends, ends));
    }
    let told = |cell: &Ends| i128::from(cell.rows) + cell.ends.map_or(0, |(a, b)| i128::from(a) + i128::from(b));
    (all.len(), all.values().map(told).sum())
}

fn sum_of(slices: Vec<Slice<'_>>) -> i128 {
    let slice = |(batch, rows): Slice<'_>| rows.filter(|&i| batch.v.validity.get(i)).map(|i| i128::from(batch.v.values[i])).sum::<i128>();
    slices.into_iter().map(slice).sum()
}

/// `sum(v)` of all rows.
fn sum(batches: &[Batch], pieces: usize) -> (usize, i128) {
    (1, of_pieces(batches, pieces, sum_of).into_iter().sum())
}

/// `rows` where `v + 1 > 5 and not is_null(k)`, word by word of the validities, in one piece.
fn rows_where(batches: &[Batch]) -> Option<(usize, i128)> {
    let mut rows: u64 = 0;
    for batch in batches {
        for (place, values) in batch.v.values.chunks(64).enumerate() {
            let (mut greater, mut over) = (0u64, 0u64);
            for (i, v) in values.iter().enumerate() {
                let (sum, past) = v.overflowing_add(1);
                greater |= u64::from(sum > 5) << i;
                over |= u64::from(past) << i;
            }
            if over & batch.v.validity.0[place] != 0 {
                return None;
            }
            rows += u64::from((greater & batch.v.validity.0[place] & batch.k.validity.0[place]).count_ones());
        }
    }
    Some((1, i128::from(rows)))
}

fn main() {
    let words: Vec<String> = args().collect();
    let [_, query, batches, rows, times, pieces] = &words[..] else { panic!("QUERY BATCHES ROWS TIMES PIECES") };
    let (count, rows): (u32, usize) = (batches.parse().expect("batches"), rows.parse().expect("rows"));
    let batches: Vec<Batch> = (0..count).map(|b| Batch::new(rows, b.wrapping_mul(rows as u32))).collect();
    let pieces: usize = pieces.parse().expect("pieces");
    for _ in 0..times.parse::<usize>().expect("times") {
        let batches = black_box(&batches[..]);
        let (groups, sum) = match query.as_str() {
            "sum-by-text" => sums_by_text(batches, pieces),
            "ends-by-number" => ends_by_number(batches, pieces),
            "sum" => sum(batches, pieces),
            "rows-where" => rows_where(batches).expect("no overflow"),
            _ => panic!("no such query"),
        };
        println!("{groups} {sum}");
    }
}
