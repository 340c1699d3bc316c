//! The table: the proved calls beside the same by hand, and beside Berkeley DB's lock manager.

#[cfg(feature = "berkeley")]
mod berkeley;
mod events;
mod orders;
mod requests;

fn main() {
    bench::measure::head();
    requests::rows();
    orders::rows();
    events::rows();
    #[cfg(feature = "berkeley")]
    berkeley::rows();
    println!();
    println!("Mixed script: {}.", requests::mix());
}
