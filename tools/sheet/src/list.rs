//! A sheet as a list of bytes for a C compiler, sixteen to a line.

/// What stands between the braces of a C array: `static uint8_t sheet[] = {`, an include of it, `};`.
pub fn text(bytes: &[u8]) -> String {
    let line = |bytes: &[u8]| {
        let bytes: Vec<String> = bytes.iter().map(|byte| format!("0x{byte:02X},")).collect();
        format!("{}\n", bytes.join(" "))
    };
    let head = format!("/* a device sheet of {} bytes, for a uint8_t sheet[] */\n", bytes.len());
    head + &bytes.chunks(16).map(line).collect::<String>()
}
