//! The phases of `bench_maps` over the map of Rust's std. Build it by `rustc -C opt-level=3 std_map.rs`.
use std::collections::BTreeMap;
use std::time::Instant;

// xorshift64*, as in the crate `bench_maps`.
struct Numbers(u64);

impl Numbers {
    fn draw(&mut self) -> u64 {
        self.0 ^= self.0 >> 12;
        self.0 ^= self.0 << 25;
        self.0 ^= self.0 >> 27;
        self.0.wrapping_mul(0x2545_f491_4f6c_dd1d)
    }
}

fn drawn(numbers: &mut Numbers, count: usize) -> Vec<u64> {
    (0..count).map(|_| numbers.draw()).collect()
}

fn shuffle(keys: &mut [u64], numbers: &mut Numbers) {
    for last in (1..keys.len()).rev() {
        let other = numbers.draw() % (last as u64 + 1);
        keys.swap(last, other as usize);
    }
}

fn sum_at(map: &BTreeMap<u64, u64>, keys: &[u64]) -> u64 {
    keys.iter()
        .filter_map(|key| map.get(key))
        .fold(0, |sum, value| sum.wrapping_add(*value))
}

// Ranges with values as the crate `rangemap` keeps them: from the start of each range to its end and value.
struct RangeMap(BTreeMap<u64, (u64, u64)>);

impl RangeMap {
    fn put(&mut self, start: u64, end: u64, value: u64) {
        if start < end {
            self.0.insert(start, (end, value));
        }
    }

    // Takes in a range that has the new value, and cuts one that overlaps the new numbers.
    fn adjust(&mut self, (first, (last, old)): (u64, (u64, u64)), start: &mut u64, end: &mut u64, value: u64) {
        if old == value {
            self.0.remove(&first);
            (*start, *end) = ((*start).min(first), (*end).max(last));
        } else if first < *end && *start < last {
            self.0.remove(&first);
            self.put(first, *start, old);
            self.put(*end, last, old);
        }
    }

    fn insert(&mut self, mut start: u64, mut end: u64, value: u64) {
        let before = self.0.range(..=start).rev().take(2);
        let touching = before.filter(|(first, span)| **first <= end && start <= span.0);
        if let Some((first, span)) = touching.last() {
            self.adjust((*first, *span), &mut start, &mut end, value);
        }
        while let Some((first, span)) = self.0.range(start..=end).next() {
            if *first == end && span.1 != value {
                break;
            }
            self.adjust((*first, *span), &mut start, &mut end, value);
        }
        self.0.insert(start, (end, value));
    }

    fn cut(&mut self, (first, (last, value)): (u64, (u64, u64)), start: u64, end: u64) {
        self.0.remove(&first);
        self.put(first, start, value);
        self.put(end, last, value);
    }

    fn remove(&mut self, start: u64, end: u64) {
        if let Some((first, span)) = self.0.range(..=start).next_back().filter(|(_, span)| start < span.0) {
            self.cut((*first, *span), start, end);
        }
        while let Some((first, span)) = self.0.range(start..end).next() {
            self.cut((*first, *span), start, end);
        }
    }

    fn get(&self, number: u64) -> Option<u64> {
        let (_, (end, value)) = self.0.range(..=number).next_back()?;
        (number < *end).then_some(*value)
    }
}

fn phase(name: &str, run: impl FnOnce() -> u64) {
    let since = Instant::now();
    let sum = run();
    println!("rust_std.{name} {} {sum}", since.elapsed().as_nanos());
}

fn main() {
    let count = std::env::args().nth(1).and_then(|word| word.parse().ok());
    let count: usize = count.expect("usage: std_map NUMBER_OF_KEYS");
    let mut numbers = Numbers(0x9e37_79b9_7f4a_7c15);
    let put = drawn(&mut numbers, count);
    let absent = drawn(&mut numbers, count);
    let mut present = put.clone();
    shuffle(&mut present, &mut numbers);

    let mut map = BTreeMap::new();
    phase("insert", || {
        let old = |(index, key): (usize, &u64)| map.insert(*key, index as u64);
        put.iter().enumerate().filter_map(old).count() as u64
    });
    phase("get_present", || sum_at(&map, &present));
    phase("get_absent", || sum_at(&map, &absent));
    phase("iterate", || {
        let sum = |sum: u64, (key, value): (&u64, &u64)| sum.wrapping_add(*key).wrapping_add(*value);
        map.iter().fold(0, sum)
    });
    phase("iterate_back", || {
        let sum = |sum: u64, (key, value): (&u64, &u64)| sum.wrapping_add(*key).wrapping_add(*value);
        map.iter().rev().fold(0, sum)
    });
    let width = (u64::MAX / (count as u64).max(1)).saturating_mul(9);
    phase("range_ten", || {
        let pairs = |key: &u64| map.range(*key..=key.saturating_add(width));
        let sum = |sum: u64, (key, value): (&u64, &u64)| sum.wrapping_add(*key).wrapping_add(*value);
        present.iter().flat_map(pairs).fold(0, sum)
    });
    phase("remove", || {
        present
            .iter()
            .filter_map(|key| map.remove(key))
            .fold(0, |sum, value| sum.wrapping_add(value))
    });

    let mut descending = BTreeMap::new();
    phase("descend", || {
        let is_absent = |key: &u64| descending.insert(*key, *key).is_none();
        (1..=count as u64).rev().filter(is_absent).count() as u64
    });

    let filled = || put.iter().zip(0..).map(|(key, index)| (*key, index)).collect::<BTreeMap<u64, u64>>();
    let sum = |sum: u64, (key, value): (u64, u64)| sum.wrapping_add(key).wrapping_add(value);
    let owned = filled();
    phase("consume", || owned.into_iter().fold(0, sum));
    let owned = filled();
    phase("consume_back", || owned.into_iter().rev().fold(0, sum));

    let mut ranges = RangeMap(BTreeMap::new());
    let width = u64::MAX / (count as u64).max(1);
    phase("range_map", || {
        for (index, key) in put.iter().enumerate() {
            match key.saturating_add(width) {
                end if index % 2 == 0 => ranges.insert(*key, end, key % 4),
                end => ranges.remove(*key, end),
            }
        }
        ranges.0.len() as u64
    });
    phase("range_map_get", || present.iter().filter_map(|key| ranges.get(*key)).map(|value| value + 1).sum());
}
