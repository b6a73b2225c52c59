//! The page heap of document 01 in plain Rust: no proofs, in place, words in a slice that the caller lends.
//!
//! `word` packs and unpacks page words; `region` is the heap on a record and its words. Every public call of
//! [`Heap`] but set-up audits the whole region first, as document 01 asks, by one of the two ways of `audit`.

pub mod audit;
pub mod region;
pub mod word;

pub use audit::{Audit, ListByList, OneWalk};
pub use region::{Heap, Refusal, Region, MAX_ORDER, MAX_PAGES, PAGE_SIZE};
pub use word::{PageInfo, Word, NO_PAGE};

/// The least order whose block holds `size` bytes: as many binary digits as the page of the last byte has, counted from 0.
pub fn get_order(size: u64) -> u32 {
    let last = size.saturating_sub(1) / PAGE_SIZE;
    u64::BITS - last.leading_zeros()
}

#[cfg(test)]
mod tests {
    use super::{get_order, PAGE_SIZE};

    #[test]
    fn order_is_the_least() {
        let block = |order: u32| u128::from(PAGE_SIZE) << order;
        let powers = (0..64).map(|digit| 1u64 << digit);
        for size in powers.flat_map(|power| [power - 1, power, power + 1]).chain([u64::MAX]) {
            let order = get_order(size);
            assert!(u128::from(size) <= block(order), "size {size}");
            assert!(order == 0 || block(order - 1) < size.into(), "size {size}");
        }
    }

    #[test]
    fn orders() {
        let cases = [
            (0, 0),
            (1, 0),
            (4096, 0),
            (4097, 1),
            (131_072, 5),
            (131_073, 6),
            (1 << 63, 51),
            ((1 << 63) + 1, 52),
            (u64::MAX, 52),
        ];
        for (size, order) in cases {
            assert_eq!(get_order(size), order, "size {size}");
        }
    }
}
