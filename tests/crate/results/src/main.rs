//! Prints what the conformance suite finds in the Rust crate, as the suite's page shows.

dwexpr_conformance::implementation!(ours = dwexpr);

fn main() {
    std::panic::set_hook(Box::new(|_| {}));
    for difference in dwexpr_conformance::differences(&ours::Over(dwexpr::EndianSlice::new)) {
        println!("{difference}");
    }
}
