//! Prints whether the engine takes no bytes, and by what it refuses them when C code asks.

extern "C" {
    fn refusal_of_nothing() -> u32;
}

fn main() {
    println!("{} {}", keshmirun::check(&[]).is_ok(), unsafe { refusal_of_nothing() });
}
