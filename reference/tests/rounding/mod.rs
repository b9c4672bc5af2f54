/// The nearest whole number, the even one at a half: the floor, or one more.
/// (f64's own function for it is younger than Rust 1.63.)
pub fn to_nearest_even(x: f64) -> f64 {
    let floor = x.floor();
    match (x - floor).partial_cmp(&0.5) {
        Some(std::cmp::Ordering::Less) => floor,
        Some(std::cmp::Ordering::Equal) if floor % 2.0 == 0.0 => floor,
        _ => floor + 1.0,
    }
}
