use tingmudra::{get_order, Heap, Refusal};

fn main() -> Result<(), Refusal> {
    let mut words = [0; 64];
    let mut heap = Heap::new(&mut words);
    heap.setup(1048576, 64, 3)?;
    let address = heap.allocate(get_order(8192))?;
    println!("two pages at {address}");
    heap.free(address)
}
