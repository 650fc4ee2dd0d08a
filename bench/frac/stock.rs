//! The work of the crate frac_bench in stock Rust: fractions of `i128` in lowest terms by Euclid's divisions.

use std::cmp::Ordering;

const NUMBERS: u32 = 16384;
const GREATEST: i128 = 9223372036854775807;

#[derive(Clone, Copy)]
struct Frac {
    num: i128,
    den: i128,
}

fn gcd(a: i128, b: i128) -> i128 {
    let (mut x, mut y) = (a.abs(), b.abs());
    while y != 0 {
        (x, y) = (y, x % y);
    }
    x
}

impl Frac {
    fn make(num: i128, den: i128) -> Option<Frac> {
        if den == 0 {
            return None;
        }
        let divisor = if den < 0 { -gcd(num, den) } else { gcd(num, den) };
        let (num, den) = (num / divisor, den / divisor);
        if num.abs() <= GREATEST && den <= GREATEST {
            Some(Frac { num, den })
        } else {
            None
        }
    }

    fn add(self, other: Frac) -> Option<Frac> {
        Frac::make(self.num * other.den + other.num * self.den, self.den * other.den)
    }

    fn mul(self, other: Frac) -> Option<Frac> {
        Frac::make(self.num * other.num, self.den * other.den)
    }

    fn cmp(self, other: Frac) -> Ordering {
        (self.num * other.den).cmp(&(other.num * self.den))
    }
}

fn numbers(parts: i128) -> Vec<Frac> {
    let mut seed: u32 = 1;
    (0..NUMBERS)
        .filter_map(|_| {
            seed = seed.wrapping_mul(1664525).wrapping_add(1013904223);
            Frac::make((seed >> 8) as i128 % 4001 - 2000, parts)
        })
        .collect()
}

fn mixed(check: u64, number: Frac) -> u64 {
    check
        .rotate_left(1)
        .wrapping_add(number.num.unsigned_abs() as u64 ^ number.den as u64)
}

fn sums(rounds: u32) -> u64 {
    let numbers = numbers(1000);
    let mut sum = Frac { num: 0, den: 1 };
    for _ in 0..rounds {
        for number in &numbers {
            sum = sum.add(*number).unwrap_or(*number);
        }
    }
    mixed(0, sum)
}

fn products(rounds: u32) -> u64 {
    let numbers = numbers(8);
    let mut check = 0;
    for _ in 0..rounds {
        let mut last = numbers[0];
        for number in &numbers {
            if let Some(product) = last.mul(*number) {
                check = mixed(check, product);
            }
            last = *number;
        }
    }
    check
}

fn comparisons(rounds: u32) -> u64 {
    let numbers = numbers(1000);
    let mut count = 0;
    for _ in 0..rounds {
        let mut last = numbers[0];
        for number in &numbers {
            if last.cmp(*number) == Ordering::Less {
                count += 1;
            }
            last = *number;
        }
    }
    count
}

fn main() {
    let words: Vec<String> = std::env::args().collect();
    let (work, rounds) = match &words[..] {
        [_, work, rounds] => (work.as_str(), rounds.parse().unwrap_or(1)),
        _ => ("all", 1),
    };
    if work == "sums" || work == "all" {
        println!("sums {}", sums(rounds));
    }
    if work == "products" || work == "all" {
        println!("products {}", products(rounds));
    }
    if work == "comparisons" || work == "all" {
        println!("comparisons {}", comparisons(rounds));
    }
}
