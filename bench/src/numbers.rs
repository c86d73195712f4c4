//! Numbers to print: a fixed list of 4,096 of every length, and one of 4,096 for each number of digits.

const COUNT: usize = 4_096;

/// The most digits that a number of 64 bits has.
pub const LONGEST: u32 = 20;

pub fn fixed() -> Vec<u64> {
    mixed()
        .zip(0..COUNT)
        .map(|(number, index)| number >> (index % 64))
        .collect()
}

/// Numbers of so many digits, spread over all that there are.
pub fn of_length(digits: u32) -> Vec<u64> {
    // 0 has one digit.
    let least = 10u64.pow(digits - 1) - u64::from(digits == 1);
    let most = 10u64.checked_pow(digits).map_or(u64::MAX, |n| n - 1);
    let spread = |number| least + number % (most - least + 1);
    mixed().map(spread).take(COUNT).collect()
}

/// The same numbers in every run.
fn mixed() -> impl Iterator<Item = u64> {
    std::iter::successors(Some(1u64), |number| {
        let product = number.wrapping_mul(6_364_136_223_846_793_005);
        Some(product.wrapping_add(1_442_695_040_888_963_407))
    })
}
