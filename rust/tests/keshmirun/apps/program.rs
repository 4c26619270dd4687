//! Prints whether the engine takes a table, and one that is cut.

fn main() {
    // one initial node, one action, and the control edge between them
    let table = [0, 15, 1, 2, 1, 1, 255, 0, 0, 2, 255, 0, 0, 0, 0, 1, 0];
    println!("{} {}", keshmirun::check(&table).is_ok(), keshmirun::check(&table[..16]).is_ok());
}
