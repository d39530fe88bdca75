//! Cases of the field: rows of sums, products and quotients, each with all 256 second operands.

use super::{Call, Case, Cases, PRODUCT, QUOTIENT, SUM};
use crate::field::{product, quotient};
use crate::refusals;

pub fn add_all(cases: &mut Cases) {
    let seconds: Vec<u8> = (0..=255).collect();
    let operations: [(Call, fn(u8, u8) -> Option<u8>); 3] = [(SUM, |u, v| Some(u ^ v)), (PRODUCT, |u, v| Some(product(u, v))), (QUOTIENT, quotient)];
    for (call, operation) in operations {
        for first in (0..64).chain([64, 65, 70, 127, 128, 255]) {
            let values = seconds.iter().map(|&second| match first > 63 || second > 63 {
                true => format!(" r{}", refusals::VALUE_OVER),
                false => operation(first, second).map_or(format!(" r{}", refusals::QUOTIENT_BY_ZERO), |value| format!(" {value:02x}")),
            });
            cases.add_line(Case { small: first, ..Case::new(call, &seconds) }, &values.collect::<String>());
        }
    }
}
