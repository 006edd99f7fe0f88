//! Which numbers an axis and the colour bar are marked with.

/// The multiples from `first` to `last` of the smallest of `steps` that has at most `most` of them.
fn multiples(first: i64, last: i64, most: usize, mut steps: impl Iterator<Item = i64>) -> Vec<i64> {
    let from = |step: i64| (first + step - 1).div_euclid(step) * step;
    let count = |step: i64| if from(step) > last { 0 } else { (last - from(step)) / step + 1 };
    let step = steps.find(|&step| count(step) <= most as i64).expect("the last step is longer than every range");
    (0..count(step)).map(|i| from(step) + i * step).collect()
}

/// 1, 2, 5, 10, 20, 50 and so on.
fn round_numbers() -> impl Iterator<Item = i64> {
    (0..9).flat_map(|power| [1, 2, 5].map(|n| n * 10_i64.pow(power)))
}

/// Marks of an axis: each location of the grid on it where that is at most `most`, else multiples of a round number.
pub fn of_axis(first: u16, step: u16, count: u16, most: usize) -> Vec<u16> {
    let locations = (0..count).map(|i| first + i * step);
    if usize::from(count) <= most {
        return locations.collect();
    }
    let (first, last) = (i64::from(first), i64::from(first + (count - 1) * step));
    multiples(first, last, most, round_numbers()).into_iter().map(|n| n as u16).collect()
}

/// Marks of the colour bar, in 256ths: multiples of a power of two below one step, and of a round number of steps from there on.
pub fn of_bar(least: i64, greatest: i64, most: usize) -> Vec<i64> {
    let steps = (0..8).map(|power| 1 << power).chain(round_numbers().map(|n| 256 * n));
    multiples(least, greatest, most, steps)
}
