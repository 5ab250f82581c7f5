// The same work as bench/programs/arena_bench does, on a plain array-backed list.
use std::hint::black_box;

fn main() {
    let items = 1_000;
    let mut list: Vec<u64> = (0..items).collect();
    let mut index = 0;
    for item in 0..1_000_000u64 {
        list.insert(index, black_box(item));
        index += 1;
        if index >= list.len() {
            index = 0;
        }
        black_box(list.remove(index));
        if index >= list.len() {
            index = 0;
        }
    }
    black_box(&list);
}
