//! Lists of small numbers in a fixed order, for what is sought among small profiles.

/// The greatest number in a list.
const GREATEST: i32 = 4;

/// What is found first over all lists of so many numbers from 0 to `GREATEST`: lists in the order of their greatest number, then
/// number by number, the lower first.
pub fn first<const LENGTH: usize, T>(mut find: impl FnMut([i32; LENGTH]) -> Option<T>) -> Option<T> {
    (0..=GREATEST).find_map(|greatest| {
        let mut lists = lists(greatest).filter(|list| list.contains(&greatest));
        lists.find_map(&mut find)
    })
}

/// Every list of numbers from 0 to the greatest.
fn lists<const LENGTH: usize>(greatest: i32) -> impl Iterator<Item = [i32; LENGTH]> {
    let numbers = greatest + 1;
    let digit = move |number: i32, place: usize| number / numbers.pow(place as u32) % numbers;
    (0..numbers.pow(LENGTH as u32)).map(move |number| std::array::from_fn(|place| digit(number, LENGTH - 1 - place)))
}
