//! Symbols by the Rust crate qrcodegen: one segment, of digits or of bytes.
use qrcodegen::{QrCode, QrCodeEcc, QrSegment, Version};

fn main() {
    let args: Vec<String> = std::env::args().collect();
    let [_, file, level, version, count] = args.as_slice() else { panic!("usage: PEER FILE LEVEL VERSION COUNT") };
    let bytes = std::fs::read(file).unwrap();
    let level = [QrCodeEcc::Low, QrCodeEcc::Medium, QrCodeEcc::Quartile, QrCodeEcc::High]["LMQH".find(level.as_str()).unwrap()];
    let version: u8 = version.parse().expect("no Micro");
    let (least, most) = if version == 0 { (Version::MIN, Version::MAX) } else { (Version::new(version), Version::new(version)) };
    let text = std::str::from_utf8(&bytes).ok().filter(|text| text.bytes().all(|byte| byte.is_ascii_digit()));
    let count: usize = count.parse().unwrap();
    let (mut side, mut dark) = (0, 0);
    for i in 0..count {
        let part = match text {
            Some(digits) => QrSegment::make_numeric(digits),
            None => QrSegment::make_bytes(&bytes),
        };
        let symbol = QrCode::encode_segments_advanced(&[part], level, least, most, None, false).unwrap();
        side = symbol.size();
        if i + 1 == count {
            dark = (0..side * side).filter(|k| symbol.get_module(k % side, k / side)).count();
        }
    }
    println!("{side} {dark}");
}
