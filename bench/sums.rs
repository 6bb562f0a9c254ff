//! Measures how fast a sum is written as clauses: by the proved totallers, and by plain Rust code that writes
//! the same words. It first compares what they write, and then prints a table. `tools/bench-sums` builds and runs it.

use std::convert::Infallible;
use std::hint::black_box;
use std::time::{Duration, Instant};

/// Each figure is the fastest of so many rounds, each of which takes at least so long.
const ROUNDS: usize = 9;
const LEAST: Duration = Duration::from_millis(100);

/// How many items the sums have.
const SIZES: [usize; 3] = [8, 24, 72];

/// The weights are 1 to 9 over and over, as those of the digits of cells are.
const DIGITS: usize = 9;

/// Both totallers take it with 72 items.
const TARGET: u32 = 36;

/// Room for the words of any sum that is written here.
const ROOM: usize = 1 << 17;

/// A function of the proved library: it answers how many words it wrote, or 0 where it refuses the sum.
type Exported = unsafe extern "C" fn(
    variables: *const u32,
    variable_count: usize,
    weights: *const u8,
    weight_count: usize,
    target: u32,
    first: u32,
    words: *mut i32,
    word_count: usize,
) -> usize;

unsafe extern "C" {
    fn bench_sums_running(
        variables: *const u32,
        variable_count: usize,
        weights: *const u8,
        weight_count: usize,
        target: u32,
        first: u32,
        words: *mut i32,
        word_count: usize,
    ) -> usize;
    fn bench_sums_adder(
        variables: *const u32,
        variable_count: usize,
        weights: *const u8,
        weight_count: usize,
        target: u32,
        first: u32,
        words: *mut i32,
        word_count: usize,
    ) -> usize;
}

/// A sum: the weights of the true variables add to the target. Fresh variables count from `first`.
struct Sum {
    variables: Vec<u32>,
    weights: Vec<u8>,
    target: u32,
    first: u32,
}

impl Sum {
    /// The variables 1, 2, 3 and so on.
    fn of_size(items: usize) -> Sum {
        Sum {
            variables: (1..=items as u32).collect(),
            weights: (0..items).map(|item| (item % DIGITS + 1) as u8).collect(),
            target: TARGET,
            first: items as u32 + 1,
        }
    }

    fn write_proved(&self, exported: Exported, words: &mut [i32]) -> usize {
        // SAFETY: each pointer comes with the length of its own slice, and the function keeps none of them.
        unsafe {
            exported(
                self.variables.as_ptr(),
                self.variables.len(),
                self.weights.as_ptr(),
                self.weights.len(),
                self.target,
                self.first,
                words.as_mut_ptr(),
                words.len(),
            )
        }
    }
}

/// What plain code puts clauses into. Each is stored as its literals and then 0.
trait Sink {
    type Fault;

    fn put(&mut self, clause: &[i32]) -> Result<(), Self::Fault>;
}

/// A list that grows. Nothing of a clause is checked.
impl Sink for Vec<i32> {
    type Fault = Infallible;

    #[inline(always)]
    fn put(&mut self, clause: &[i32]) -> Result<(), Infallible> {
        self.extend_from_slice(clause);
        self.push(0);
        Ok(())
    }
}

/// A buffer that must be long enough. Nothing of a clause is checked, but each index is.
struct Buffer<'a> {
    words: &'a mut [i32],
    used: usize,
}

impl Sink for Buffer<'_> {
    type Fault = Infallible;

    #[inline(always)]
    fn put(&mut self, clause: &[i32]) -> Result<(), Infallible> {
        let rest = &mut self.words[self.used..];
        rest[..clause.len()].copy_from_slice(clause);
        rest[clause.len()] = 0;
        self.used += clause.len() + 1;
        Ok(())
    }
}

/// A buffer that is filled with zeros first, and checks each clause as a place does.
struct Checked<'a>(Buffer<'a>);

impl<'a> Checked<'a> {
    fn open(words: &'a mut [i32]) -> Checked<'a> {
        words.fill(0);
        Checked(Buffer { words, used: 0 })
    }
}

/// Why a clause is refused.
#[derive(Debug)]
enum Refused {
    Length,
    Literal,
    NoSpace,
}

impl Sink for Checked<'_> {
    type Fault = Refused;

    #[inline(always)]
    fn put(&mut self, clause: &[i32]) -> Result<(), Refused> {
        if clause.is_empty() || clause.len() > 16 {
            return Err(Refused::Length);
        }
        if clause
            .iter()
            .any(|literal| *literal == 0 || literal.unsigned_abs() > 65_535)
        {
            return Err(Refused::Literal);
        }
        let rest = &mut self.0.words[self.0.used..];
        if clause.len() + 1 > rest.len() {
            return Err(Refused::NoSpace);
        }
        rest[..clause.len()].copy_from_slice(clause);
        self.0.used += clause.len() + 1;
        Ok(())
    }
}

/// A way to write a sum, in plain code and as the proved library has it.
trait Encoding {
    const NAME: &str;
    const PROVED: Exported;

    fn write<S: Sink>(sum: &Sum, sink: &mut S) -> Result<(), S::Fault>;
}

struct Running;

impl Encoding for Running {
    const NAME: &str = "running totals";
    const PROVED: Exported = bench_sums_running;

    fn write<S: Sink>(sum: &Sum, sink: &mut S) -> Result<(), S::Fault> {
        write_running(sum, sink)
    }
}

struct Adder;

impl Encoding for Adder {
    const NAME: &str = "adder network";
    const PROVED: Exported = bench_sums_adder;

    fn write<S: Sink>(sum: &Sum, sink: &mut S) -> Result<(), S::Fault> {
        write_network(sum, sink)
    }
}

fn write_running<S: Sink>(sum: &Sum, sink: &mut S) -> Result<(), S::Fault> {
    let (target, first) = (sum.target as i32, sum.first as i32);
    let total = |items: usize, value: i32| first + items as i32 * (target + 1) + value;
    sink.put(&[total(0, 0)])?;
    for value in 1..=target {
        sink.put(&[-total(0, value)])?;
    }
    for (index, (&variable, &weight)) in sum.variables.iter().zip(&sum.weights).enumerate() {
        let (x, weight) = (variable as i32, weight as i32);
        for value in 0..=target {
            let (reached, same) = (total(index + 1, value), total(index, value));
            if value >= weight {
                let source = total(index, value - weight);
                sink.put(&[-x, -reached, source])?;
                sink.put(&[-x, reached, -source])?;
            } else {
                sink.put(&[-x, -reached])?;
            }
            sink.put(&[x, -reached, same])?;
            sink.put(&[x, reached, -same])?;
        }
    }
    sink.put(&[total(sum.variables.len(), target)])
}

fn full_adder<S: Sink>(
    a: i32,
    b: i32,
    c: i32,
    s: i32,
    t: i32,
    sink: &mut S,
) -> Result<(), S::Fault> {
    sink.put(&[a, b, c, -s])?;
    sink.put(&[a, -b, -c, -s])?;
    sink.put(&[-a, b, -c, -s])?;
    sink.put(&[-a, -b, c, -s])?;
    sink.put(&[-a, -b, -c, s])?;
    sink.put(&[-a, b, c, s])?;
    sink.put(&[a, -b, c, s])?;
    sink.put(&[a, b, -c, s])?;
    sink.put(&[-a, -b, t])?;
    sink.put(&[-a, -c, t])?;
    sink.put(&[-b, -c, t])?;
    sink.put(&[a, b, -t])?;
    sink.put(&[a, c, -t])?;
    sink.put(&[b, c, -t])
}

fn half_adder<S: Sink>(a: i32, b: i32, s: i32, t: i32, sink: &mut S) -> Result<(), S::Fault> {
    sink.put(&[a, b, -s])?;
    sink.put(&[-a, -b, -s])?;
    sink.put(&[-a, b, s])?;
    sink.put(&[a, -b, s])?;
    sink.put(&[-a, -b, t])?;
    sink.put(&[a, -t])?;
    sink.put(&[b, -t])
}

fn write_network<S: Sink>(sum: &Sum, sink: &mut S) -> Result<(), S::Fault> {
    let mut fresh = sum.first as i32;
    let (mut line, mut carries, mut bits) = (Vec::new(), Vec::new(), Vec::new());
    let most = sum
        .weights
        .iter()
        .copied()
        .max()
        .map_or(0, u32::from)
        .max(sum.target);
    let mut index = 0;
    while !carries.is_empty() || most >> index > 0 {
        line.clear();
        for (&variable, &weight) in sum.variables.iter().zip(&sum.weights) {
            if u32::from(weight) >> index & 1 == 1 {
                line.push(variable as i32);
            }
        }
        line.append(&mut carries);
        let mut start = 0;
        while line.len() - start > 1 {
            let (s, t) = (fresh, fresh + 1);
            if let [a, b, c, ..] = line[start..] {
                full_adder(a, b, c, s, t, sink)?;
                start += 3;
            } else {
                half_adder(line[start], line[start + 1], s, t, sink)?;
                start += 2;
            }
            line.push(s);
            carries.push(t);
            fresh += 2;
        }
        bits.push(line.get(start).copied());
        index += 1;
    }
    let item = sum.variables[0] as i32;
    for (index, bit) in bits.into_iter().enumerate() {
        let wanted = sum.target >> index & 1 == 1;
        match bit {
            Some(x) => sink.put(&[if wanted { x } else { -x }])?,
            None if wanted => {
                sink.put(&[item])?;
                sink.put(&[-item])?;
            }
            None => {}
        }
    }
    Ok(())
}

/// Calls the work so often, and tells how long that took.
fn time(calls: u64, work: &mut dyn FnMut()) -> Duration {
    let start = Instant::now();
    for _ in 0..calls {
        work();
    }
    start.elapsed()
}

/// How long a call takes in each round, in nanoseconds, from the fastest round to the slowest. Several pieces of
/// work are measured in turn, so that what slows the machine down meets all of them alike.
fn measure<const N: usize>(mut works: [&mut dyn FnMut(); N]) -> [[f64; ROUNDS]; N] {
    let mut calls = [1; N];
    let mut rounds = [[0.0; ROUNDS]; N];
    for round in 0..ROUNDS {
        for (index, work) in works.iter_mut().enumerate() {
            // More calls until they take long enough; the first round begins with one.
            let mut took = time(calls[index], work);
            while took < LEAST {
                calls[index] *= 2;
                took = time(calls[index], work);
            }
            rounds[index][round] = took.as_nanos() as f64 / calls[index] as f64;
        }
    }
    for each in &mut rounds {
        each.sort_by(f64::total_cmp);
    }
    rounds
}

/// Prints one line of the table, and answers how far the median of the rounds is above the fastest, at worst.
fn compare<E: Encoding>(items: usize) -> f64 {
    let sum = Sum::of_size(items);

    // All write the same words.
    let mut list = Vec::new();
    let Ok(()) = E::write(&sum, &mut list);
    let mut room = vec![-1; ROOM];
    let used = sum.write_proved(E::PROVED, &mut room);
    assert!(used > 0, "the sum is refused");
    assert!(
        room[..used] == list,
        "the proved code and the plain code write other words"
    );
    assert!(
        room[used..].iter().all(|word| *word == 0),
        "not only zeros behind the clauses"
    );
    // From here on a buffer that just suffices, since opening a place fills all of it.
    let [mut words, mut plain, mut checked] = [(); 3].map(|()| vec![-1; used]);
    assert!(sum.write_proved(E::PROVED, &mut words) == used && words == list);
    let Ok(()) = E::write(
        &sum,
        &mut Buffer {
            words: &mut plain,
            used: 0,
        },
    );
    assert!(
        plain == list,
        "the plain code writes other words to a buffer"
    );
    E::write(&sum, &mut Checked::open(&mut checked)).expect("no clause is wrong");
    assert!(
        checked == list,
        "the plain code writes other words to a checked buffer"
    );

    let clauses = list.iter().filter(|word| **word == 0).count();
    let rounds = measure([
        &mut || {
            black_box(black_box(&sum).write_proved(E::PROVED, black_box(&mut words)));
        },
        &mut || {
            let mut sink = Checked::open(black_box(&mut checked));
            black_box(E::write(black_box(&sum), &mut sink)).expect("no clause is wrong");
        },
        &mut || {
            let mut sink = Buffer {
                words: black_box(&mut plain),
                used: 0,
            };
            let Ok(()) = black_box(E::write(black_box(&sum), &mut sink));
        },
        &mut || {
            list.clear();
            let Ok(()) = black_box(E::write(black_box(&sum), black_box(&mut list)));
        },
    ]);
    let figures = rounds.each_ref().map(|each| {
        let nanoseconds = each[0] / clauses as f64;
        format!("{nanoseconds:.2} ({:.0})", 1000.0 / nanoseconds)
    });
    println!(
        "| {} | {items} | {clauses} | {used} | {} |",
        E::NAME,
        figures.join(" | ")
    );
    rounds
        .iter()
        .map(|each| each[ROUNDS / 2] / each[0] - 1.0)
        .fold(0.0, f64::max)
}

fn main() {
    println!("Nanoseconds for each clause and, in parentheses, million clauses a second.");
    println!(
        "Weights 1 to {DIGITS} over and over, target {TARGET}; the fastest of {ROUNDS} rounds of at least {LEAST:?}.\n"
    );
    println!(
        "| Totaller | Items | Clauses | Words | Proved | Plain, checked buffer | Plain, buffer | Plain, Vec |"
    );
    println!("| --- {}|", "| ---: ".repeat(7));
    let worst = SIZES
        .map(compare::<Running>)
        .into_iter()
        .chain(SIZES.map(compare::<Adder>));
    let worst = worst.fold(0.0, f64::max);
    println!(
        "\nThe median of the rounds is at most {:.0} % above the fastest.",
        100.0 * worst
    );
}
