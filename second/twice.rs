//! Words whose locator has a root twice: there the locator's derivative is 0, and no value can be had by dividing.
//!
//! The sums of what is wrong in such a word follow a recurrence of at most five terms that has a place for its root twice, and no shorter one. Those of
//! five errors or fewer follow one whose roots are their places, each once. So no line lies within five characters.

use crate::code::Code;
use crate::line::{random_addresses, with_sums};
use crate::random::Random;

/// A word whose locator has the first of these addresses for its root twice, and the others once: up to four addresses.
pub fn word(code: &Code, random: &mut Random, addresses: &[usize]) -> Vec<u8> {
    let recurrence = code.with_roots(&[&addresses[..1], addresses].concat());
    let roots = addresses.len() + 1;
    let sums = loop {
        let sums = code.continued(&random.bytes(roots, 64), &recurrence);
        // no shorter recurrence has these sums
        if code.recurrence(&sums) == (roots, recurrence.clone()) {
            break sums;
        }
    };
    let word = with_sums(code, random, sums);
    assert_eq!(code.to_mend(&word), sums);
    assert!(code.nearest(&word).is_none());
    word
}

/// The same at random addresses: so many roots, from 2 to 5, the one that comes twice counted twice.
pub fn random_word(code: &Code, random: &mut Random, roots: usize) -> Vec<u8> {
    let addresses = random_addresses(random, roots - 1);
    word(code, random, &addresses)
}
