//! How two regions are kept: each has a record and words of its own. A grant asks the first and then the second, a free
//! goes to the one that holds the address.
//!
//! Where a region lies is kept outside of its record: a start that something else has moved leaves record and words
//! sound, so no call would refuse it.

use tingmudra::{get_order, Heap, Refusal, PAGE_SIZE};

/// A region, and what its caller knows of it.
pub struct Placed<'a> {
    start: u64,
    boot: u64,
    heap: Heap<'a>,
}

impl<'a> Placed<'a> {
    /// Sets a region up, with as many pages as there are words.
    pub fn new(start: u64, boot: u64, words: &'a mut [u64]) -> Result<Self, Refusal> {
        let mut heap = Heap::new(words);
        heap.setup(start, heap.words.len() as u64, boot)?;
        Ok(Placed { start, boot, heap })
    }

    fn holds(&self, address: u64) -> bool {
        address.wrapping_sub(self.start) < self.heap.words.len() as u64 * PAGE_SIZE
    }

    /// The heap, if its record still says what the caller knows.
    fn heap(&mut self) -> Result<&mut Heap<'a>, Refusal> {
        if (self.heap.region.start, self.heap.region.allocated) != (self.start, self.boot) {
            return Err(Refusal::Damaged);
        }
        Ok(&mut self.heap)
    }
}

/// Two regions that do not overlap.
pub struct Two<'a> {
    first: Placed<'a>,
    second: Placed<'a>,
}

impl<'a> Two<'a> {
    /// Refused where the regions overlap. The heap cannot see that: it knows of one region at a time.
    pub fn new(first: Placed<'a>, second: Placed<'a>) -> Result<Self, Refusal> {
        if first.holds(second.start) || second.holds(first.start) {
            return Err(Refusal::BadStart);
        }
        Ok(Two { first, second })
    }

    /// A block of the first region or, where that has none free, of the second. Other refusals are answered as they
    /// are, so a damaged region is not passed over in silence.
    pub fn allocate(&mut self, order: u64) -> Result<u64, Refusal> {
        match self.first.heap()?.allocate(order) {
            Err(Refusal::OutOfMemory) => self.second.heap()?.allocate(order),
            answer => answer,
        }
    }

    /// Frees a block of the region that holds its address.
    pub fn free(&mut self, address: u64) -> Result<(), Refusal> {
        match [&mut self.first, &mut self.second].into_iter().find(|region| region.holds(address)) {
            Some(region) => region.heap()?.free(address),
            None => Err(Refusal::InvalidHeapAddress(address)),
        }
    }
}

fn main() -> Result<(), Refusal> {
    let (mut low, mut high) = ([0; 64], [0; 1024]);
    let mut regions = Two::new(Placed::new(0x10_0000, 3, &mut low)?, Placed::new(0x100_0000, 0, &mut high)?)?;
    let small = regions.allocate(get_order(4096))?;
    let large = regions.allocate(get_order(128 * 1024))?; // which the first region has not
    println!("a page at {small:#x}, 128 KiB at {large:#x}");
    regions.free(large)?;
    regions.free(small)?;
    println!("an address in neither: {:?}", regions.free(0x80_0000));
    Ok(())
}

#[cfg(test)]
mod tests {
    use super::*;

    const LOW: u64 = 0x10_0000;
    const HIGH: u64 = 0x100_0000;

    fn with_two(test: impl FnOnce(Two)) {
        let (low, high) = (&mut [0; 64], &mut [0; 64]);
        let regions = [Placed::new(LOW, 3, low), Placed::new(HIGH, 0, high)];
        let [first, second] = regions.map(|region| region.expect("a region"));
        test(Two::new(first, second).expect("two regions"));
    }

    #[test]
    fn the_second_follows_the_first() {
        with_two(|mut two| {
            let fresh = [two.first.heap.region, two.second.heap.region];
            let blocks: Vec<u64> = std::iter::from_fn(|| two.allocate(0).ok()).collect();
            assert_eq!(blocks.len(), 60 + 63);
            assert!(blocks[..60].iter().all(|&address| two.first.holds(address)));
            assert!(blocks[60..].iter().all(|&address| two.second.holds(address)));
            assert_eq!(two.allocate(0), Err(Refusal::OutOfMemory));
            for &address in &blocks {
                assert_eq!(two.free(address), Ok(()));
                assert_eq!(two.free(address), Err(Refusal::InvalidPageType(address)));
            }
            let counts = [two.first.heap.region, two.second.heap.region].map(|region| region.free_pages);
            assert_eq!(counts, fresh.map(|region| region.free_pages));
        });
    }

    #[test]
    fn other_refusals_are_answered() {
        with_two(|mut two| {
            assert_eq!(two.allocate(6), Err(Refusal::InvalidPageOrder(6)));
            assert_eq!(two.free(LOW), Err(Refusal::BootPage(LOW)));
            for address in [0, LOW - 1, LOW + 64 * PAGE_SIZE, HIGH - PAGE_SIZE, HIGH + 64 * PAGE_SIZE, u64::MAX] {
                assert_eq!(two.free(address), Err(Refusal::InvalidHeapAddress(address)));
            }
        });
    }

    #[test]
    fn damage_is_refused() {
        let damages: [(fn(&mut Heap), _); 3] = [
            (|heap| heap.words[5] = 0x63, Err(Refusal::Damaged)),
            // what no audit sees
            (|heap| heap.region.start = HIGH, Ok(())),
            (|heap| (heap.region.allocated, heap.region.nr_pages[0]) = (2, 3), Ok(())),
        ];
        for (damage, audit) in damages {
            with_two(|mut two| {
                damage(&mut two.first.heap);
                assert_eq!(two.first.heap.audit(), audit);
                assert_eq!(two.allocate(0), Err(Refusal::Damaged));
                assert_eq!(two.free(LOW + 2 * PAGE_SIZE), Err(Refusal::Damaged));
            });
        }
    }

    #[test]
    fn overlaps_are_refused() {
        for (pages, refused) in [(-64, false), (-63, true), (0, true), (63, true), (64, false)] {
            let (low, other) = (&mut [0; 64], &mut [0; 64]);
            let start = LOW.wrapping_add_signed(pages * 4096);
            let two =
                Two::new(Placed::new(LOW, 0, low).expect("a region"), Placed::new(start, 0, other).expect("another"));
            assert_eq!(two.err(), refused.then_some(Refusal::BadStart), "{pages} pages on");
        }
    }
}
