//! Symbols and pictures by the Rust crate qrcode, whose sources are given by their path.
use qrcode::render::{svg, unicode};
use qrcode::{EcLevel, QrCode, Version};

fn main() {
    let args: Vec<String> = std::env::args().collect();
    let [_, file, level, version, count, picture @ ..] = args.as_slice() else {
        panic!("usage: PEER FILE LEVEL VERSION COUNT [half-blocks|svg]")
    };
    let bytes = std::fs::read(file).unwrap();
    let level = [EcLevel::L, EcLevel::M, EcLevel::Q, EcLevel::H]["LMQH".find(level.as_str()).unwrap()];
    let count: usize = count.parse().unwrap();
    let make = || match version.strip_prefix('M') {
        Some(number) => QrCode::with_version(&bytes, Version::Micro(number.parse().unwrap()), level),
        None if version == "0" => QrCode::with_error_correction_level(&bytes, level),
        None => QrCode::with_version(&bytes, Version::Normal(version.parse().unwrap()), level),
    };
    if let [picture] = picture {
        let code = make().unwrap();
        let mut length = 0;
        for _ in 0..count {
            length = match picture.as_str() {
                "half-blocks" => code.render::<unicode::Dense1x2>().build().len(),
                "svg" => code.render::<svg::Color>().build().len(),
                _ => panic!("no such picture"),
            };
        }
        println!("{length}");
        return;
    }
    let (mut side, mut dark) = (0, 0);
    for i in 0..count {
        let code = make().unwrap();
        side = code.width();
        if i + 1 == count {
            dark = code.to_colors().iter().filter(|color| **color == qrcode::Color::Dark).count();
        }
    }
    println!("{side} {dark}");
}
