//! The proved heap and the plain one, with either of its audits, behind one trait. No call is inlined into a workload, so that
//! all are real calls.

/// A refusal's number, and what it carries.
pub type Refusal = (u64, Option<u64>);
/// What a call answers: up to two values.
pub type Answer = Result<[u64; 2], Refusal>;
/// Blocks and free blocks of each order.
pub type Report = Result<[[u64; 6]; 2], Refusal>;
/// A record, as its fields, and the words.
pub type State<'a> = ([u64; 3], [[u64; 6]; 3], &'a [u64]);

pub trait Heap {
    const NAME: &'static str;
    fn of(pages: u64) -> Self;
    fn state(&self) -> State<'_>;
    fn load(&mut self, state: State<'_>);
    fn setup(&mut self, start: u64, boot: u64) -> Answer;
    fn allocate(&mut self, order: u64) -> Answer;
    fn allocate_file(&mut self) -> Answer;
    fn allocate_slab(&mut self, item: u64) -> Answer;
    fn free(&mut self, address: u64) -> Answer;
    fn get(&mut self, address: u64) -> Answer;
    fn put(&mut self, address: u64) -> Answer;
    fn lookup(&self, address: u64) -> Answer;
    fn report(&self) -> Report;
    fn audit(&self) -> Answer;
}

/// The proved heap, by its static library.
pub type Proved = tingmudra::Heap<'static>;
/// The heap in plain Rust, with an audit that goes list by list, and with one that makes one walk.
pub type Plain = heap::Heap<'static, heap::ListByList>;
pub type OneWalk = heap::Heap<'static, heap::OneWalk>;

fn lent(pages: u64) -> &'static mut [u64] {
    vec![15; pages as usize].leak()
}

fn proved(refusal: tingmudra::Refusal) -> Refusal {
    (refusal.number(), refusal.value())
}

fn plain(refusal: heap::Refusal) -> Refusal {
    let (number, value) = refusal.parts();
    (number.into(), value)
}

fn none(_: ()) -> [u64; 2] {
    [0, 0]
}

fn one(value: u64) -> [u64; 2] {
    [value, 0]
}

/// What is written alike for all: `$refused` is how a refusal reads.
macro_rules! calls {
    ($refused:ident) => {
        fn state(&self) -> State<'_> {
            let r = &self.region;
            ([r.start, r.page_count, r.allocated], [r.nr_pages, r.free_pages, r.next_page], self.words)
        }
        fn load(&mut self, (numbers, arrays, words): State<'_>) {
            let r = &mut self.region;
            [r.start, r.page_count, r.allocated] = numbers;
            [r.nr_pages, r.free_pages, r.next_page] = arrays;
            self.words.copy_from_slice(words);
        }
        #[inline(never)]
        fn setup(&mut self, start: u64, boot: u64) -> Answer {
            let pages = self.words.len() as u64;
            self.setup(start, pages, boot).map(none).map_err($refused)
        }
        #[inline(never)]
        fn allocate(&mut self, order: u64) -> Answer {
            self.allocate(order).map(one).map_err($refused)
        }
        #[inline(never)]
        fn allocate_file(&mut self) -> Answer {
            self.allocate_file().map(one).map_err($refused)
        }
        #[inline(never)]
        fn allocate_slab(&mut self, item: u64) -> Answer {
            self.allocate_slab(item).map(one).map_err($refused)
        }
        #[inline(never)]
        fn free(&mut self, address: u64) -> Answer {
            self.free(address).map(none).map_err($refused)
        }
        #[inline(never)]
        fn get(&mut self, address: u64) -> Answer {
            self.get(address).map(one).map_err($refused)
        }
        #[inline(never)]
        fn put(&mut self, address: u64) -> Answer {
            self.put(address).map(one).map_err($refused)
        }
        #[inline(never)]
        fn audit(&self) -> Answer {
            self.audit().map(none).map_err($refused)
        }
    };
}

impl Heap for Proved {
    const NAME: &'static str = "proved";
    fn of(pages: u64) -> Self {
        tingmudra::Heap::new(lent(pages))
    }
    calls!(proved);
    #[inline(never)]
    fn lookup(&self, address: u64) -> Answer {
        self.lookup(address).map(|layout| [layout.size, layout.align]).map_err(proved)
    }
    #[inline(never)]
    fn report(&self) -> Report {
        self.report().map(|report| [report.total_pages, report.free_pages]).map_err(proved)
    }
}

impl<A: heap::Audit> Heap for heap::Heap<'static, A> {
    const NAME: &'static str = A::NAME;
    fn of(pages: u64) -> Self {
        heap::Heap::new(Box::leak(Box::new(heap::Region::EMPTY)), lent(pages))
    }
    calls!(plain);
    #[inline(never)]
    fn lookup(&self, address: u64) -> Answer {
        self.lookup(address).map(|(size, align)| [size, align]).map_err(plain)
    }
    #[inline(never)]
    fn report(&self) -> Report {
        self.report().map(|(blocks, free)| [blocks, free]).map_err(plain)
    }
}
