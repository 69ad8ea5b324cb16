//! Links the reader and writer of PDUs for this machine's own processor, which `make native` leaves.

fn main() {
    let archive = concat!(env!("CARGO_MANIFEST_DIR"), "/../../build/libkelindap_pdu.a");
    println!("cargo:rustc-link-arg={archive}");
    println!("cargo:rerun-if-changed={archive}");
}
