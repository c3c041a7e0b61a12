//! Good counters for batches of given sizes: all different, in the order of the file, each batch yet to be sorted.

use crate::generate::opening::shuffle;
use crate::generate::random::Random;
use std::collections::BTreeSet;

/// The highest that seven digits spell.
pub const HIGHEST: u64 = 9_999_999;

pub type Shape = fn(&mut Random, &[usize]) -> Vec<u64>;

pub const SHAPES: [Shape; 10] = [
    ranges,
    ranges,
    odd_and_even,
    descending,
    restarted,
    far_apart,
    far_apart,
    stepped,
    dense,
    from_the_end,
];

fn total(sizes: &[usize]) -> u64 {
    sizes.iter().sum::<usize>() as u64
}

/// Machines with ranges of their own that take the batches in turn, or as they come.
fn ranges(random: &mut Random, sizes: &[usize]) -> Vec<u64> {
    let machines = *random.pick(&[2, 2, 2, 3, 4]);
    let in_turn = !random.once_in(4);
    let mut next = vec![1, 5_000_001, 2_500_001, 7_500_001];
    next.truncate(machines);
    if random.once_in(2) {
        shuffle(random, &mut next);
    }
    let widest_gap = *random.pick(&[1, 1, 50]);
    let mut counters = Vec::new();
    for (batch, &size) in sizes.iter().enumerate() {
        let machine = match in_turn {
            true => batch % machines,
            false => random.below(machines),
        };
        for _ in 0..size {
            counters.push(next[machine]);
            next[machine] += random.between(1, widest_gap) as u64;
        }
    }
    counters
}

/// Machines that share one range: each has every second number, or every third, ..
fn odd_and_even(random: &mut Random, sizes: &[usize]) -> Vec<u64> {
    let machines = *random.pick(&[2, 2, 2, 3, 10]);
    let widest = machines as u64 * (total(sizes) + 1);
    let begin = any_begin(random, widest);
    let mut taken = vec![0; machines];
    let mut counters = Vec::new();
    for (batch, &size) in sizes.iter().enumerate() {
        let machine = batch % machines;
        for _ in 0..size {
            counters.push(begin + (machine + machines * taken[machine]) as u64);
            taken[machine] += 1;
        }
    }
    counters
}

/// Low, anywhere, or so that the highest of so many numbers is the last there is.
fn any_begin(random: &mut Random, numbers: u64) -> u64 {
    let highest = HIGHEST + 1 - numbers.max(1);
    let any = random.between(1, highest as usize) as u64;
    *random.pick(&[1, 1, any, highest])
}

/// Each batch lies below the one before it.
fn descending(random: &mut Random, sizes: &[usize]) -> Vec<u64> {
    let gap = *random.pick(&[0, 0, 1, 500]);
    let mut next = any_begin(random, total(sizes) + gap * sizes.len() as u64);
    let mut batches: Vec<Vec<u64>> = Vec::new();
    for &size in sizes.iter().rev() {
        let end = next + size as u64;
        batches.push((next..end).collect());
        next = end + gap;
    }
    batches.reverse();
    batches.concat()
}

/// From one batch on the counters begin anew, right below the others or far below.
fn restarted(random: &mut Random, sizes: &[usize]) -> Vec<u64> {
    let total = total(sizes);
    let at = random.below(sizes.len() + 1);
    let before = self::total(&sizes[..at]);
    let behind = total - before;
    let far = *random.pick(&[0, 0, 1, 1_000_000]);
    let low = any_begin(random, total + far);
    let high = low + behind + far;
    (high..high + before).chain(low..low + behind).collect()
}

/// Anywhere between the lowest and the highest, both of them often among them.
pub fn far_apart(random: &mut Random, sizes: &[usize]) -> Vec<u64> {
    let total = total(sizes) as usize;
    let mut known = BTreeSet::new();
    let mut counters = Vec::with_capacity(total);
    while counters.len() < total {
        let any = random.between(1, HIGHEST as usize) as u64;
        let counter = match random.below(2 * total) {
            0 => 1,
            1 => HIGHEST,
            _ => any,
        };
        if known.insert(counter) {
            counters.push(counter);
        }
    }
    counters
}

/// So far apart that hashed or paged sets may take one for another.
const STEPS: [u64; 27] = [
    8, 16, 32, 64, 100, 128, 256, 512, 1_000, 1_024, 2_048, 4_096, 8_192, 10_000, 16_384, 32_768,
    65_536, 65_536, 100_000, 131_072, 262_144, 524_288, 1_000_000, 1_048_576, 2_097_152, 4_194_304,
    8_388_608,
];

/// Each a step from the next, dealt to the batches in turn, as they come, or backwards; beyond the highest they begin anew, one further.
fn stepped(random: &mut Random, sizes: &[usize]) -> Vec<u64> {
    let step = *random.pick(&STEPS);
    let total = total(sizes);
    let rounds = 1 + (HIGHEST - step / 8 - total) / step;
    let begin = random.between(1, step as usize / 8) as u64;
    let mut counters: Vec<u64> = (0..total)
        .map(|index| begin + index / rounds + index % rounds * step)
        .collect();
    match random.below(3) {
        0 => shuffle(random, &mut counters),
        1 => counters.reverse(),
        _ => {}
    }
    counters
}

/// All numbers of a range without a gap, dealt at random.
fn dense(random: &mut Random, sizes: &[usize]) -> Vec<u64> {
    let total = total(sizes);
    let begin = any_begin(random, total);
    let mut counters: Vec<u64> = (begin..begin + total).collect();
    shuffle(random, &mut counters);
    counters
}

/// The first batch ends with the highest number there is, and the next begins with 1.
fn from_the_end(_: &mut Random, sizes: &[usize]) -> Vec<u64> {
    let first = sizes.first().map_or(0, |&size| size as u64);
    let behind = total(sizes) - first;
    (HIGHEST + 1 - first..=HIGHEST).chain(1..=behind).collect()
}
