//! Writes a PNG file of a symbol to standard output.
use goqlanis::{render::png, EcLevel, QrCode};
use std::io::Write;

fn main() -> Result<(), Box<dyn std::error::Error>> {
    let code = QrCode::of_text("https://example.org/", EcLevel::M)?;
    let file = code.render::<png::Color>().module_size(8).build();
    Ok(std::io::stdout().write_all(&file)?)
}
