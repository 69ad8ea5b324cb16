//! Links the archives for this machine's own processor, which `make native` leaves.

fn main() {
    let build = concat!(env!("CARGO_MANIFEST_DIR"), "/../../build");
    println!("cargo:rustc-link-arg-bin=bench={build}/libkelindap_device.a");
    println!("cargo:rustc-link-arg-bin=trace_times={build}/libkelindap_device.a");
    println!("cargo:rustc-link-arg-bin=link_times={build}/libkelindap_device.a");
    println!("cargo:rustc-link-arg-bin=point_times={build}/libkelindap_pdu.a");
    println!("cargo:rustc-link-arg-bin=engine_times={build}/libkelindap_device.a");
    println!("cargo:rustc-link-arg-bin=engine_times={build}/libkelindap_plain.a");
    println!("cargo:rerun-if-changed={build}/libkelindap_device.a");
    println!("cargo:rerun-if-changed={build}/libkelindap_pdu.a");
    println!("cargo:rerun-if-changed={build}/libkelindap_plain.a");
}
