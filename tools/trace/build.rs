//! Links the archives for this machine's own processor, which `make native` leaves, and asks which of two calls they have.

use std::fs;

/// Calls of the device's archive that came after the first that the tool can do with; without them it has code of its own.
const LATER: [(&str, &str); 2] = [("heard", "kelindap_heard"), ("marked", "kelindap_play_marked")];

fn main() {
    let build = concat!(env!("CARGO_MANIFEST_DIR"), "/../../build");
    for archive in ["libkelindap_device.a", "libkelindap_pdu.a"] {
        println!("cargo:rustc-link-arg={build}/{archive}");
        println!("cargo:rerun-if-changed={build}/{archive}");
    }
    let device = fs::read(format!("{build}/libkelindap_device.a")).unwrap_or_default();
    for (name, call) in LATER {
        println!("cargo:rustc-check-cfg=cfg({name})");
        if device.windows(call.len()).any(|bytes| bytes == call.as_bytes()) {
            println!("cargo:rustc-cfg={name}");
        }
    }
}
