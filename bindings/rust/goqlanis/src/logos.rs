//! Logos in areas of symbols.
use crate::areas::{Excess, Rectangle, Wish};
use crate::QrCode;
use goqlanis_sys as sys;
use std::iter;

/// The area and margin of a logo.
#[derive(Clone, Copy, Debug, PartialEq, Eq)]
pub struct LogoOptions {
    /// The area, or `None` for the largest one in the middle with the ratio of the logo.
    pub area: Option<Rectangle>,
    /// The light modules on each side of the logo, if there is room.
    pub margin: usize,
    /// If `area` is `None`: as in `Wish`.
    pub reserve: Option<u32>,
    /// If `area` is `None`: as in `Wish`.
    pub keep_alignment: bool,
}

impl Default for LogoOptions {
    fn default() -> Self {
        LogoOptions { area: None, margin: 1, reserve: None, keep_alignment: false }
    }
}

/// Why a symbol cannot get a logo.
#[derive(Clone, Copy, Debug, PartialEq, Eq)]
pub enum LogoError {
    /// The logo is neither an SVG file with a `viewBox` or a width and a height, nor a PNG file.
    NoSides,
    /// The area may not show anything, or there is no such area.
    Area(Excess),
}

says! { LogoError:
    LogoError::NoSides => "a logo is a PNG file, or SVG with a viewBox or a width and a height";
    LogoError::Area(excess) => "{excess}";
}

impl From<Excess> for LogoError {
    fn from(excess: Excess) -> Self {
        LogoError::Area(excess)
    }
}

// A picture in an area of a symbol, an SVG or PNG file.
#[derive(Clone, Debug, PartialEq, Eq, Hash)]
pub(crate) struct Logo {
    area: [usize; 4],
    pub(crate) file: Vec<u8>,
}

impl Logo {
    // Returns the area, if the logo is a PNG file.
    pub(crate) fn area_of_png(&self) -> Option<sys::goq_rectangle> {
        let [left, top, width, height] = self.area;
        is_png(&self.file).then_some(sys::goq_rectangle { left, top, width, height })
    }

    // Returns an SVG file with the picture added. Its quiet zone has `zone` modules, and a module
    // has `unit` units.
    pub(crate) fn over(&self, svg: &str, zone: usize, unit: usize) -> String {
        let [left, top, width, height] = self.area;
        let (x, y) = (unit * (zone + left), unit * (zone + top));
        let (width, height, data) = (unit * width, unit * height, base64(&self.file));
        let kind = if is_png(&self.file) { "png" } else { "svg+xml" };
        let place = format!(r#"x="{x}" y="{y}" width="{width}" height="{height}""#);
        let image = format!(r#"<image {place} href="data:image/{kind};base64,{data}"/></svg>"#);
        svg[..svg.rfind("</svg>").unwrap_or(svg.len())].to_owned() + &image
    }
}

impl QrCode {
    /// Returns the symbol with a logo: the bytes of an SVG or PNG file.
    ///
    /// Without an area in the options, the logo gets the largest one in the middle with its ratio.
    /// SVG shows the logo, and PNG a PNG file, with a margin of light modules; other formats leave
    /// the area light.
    ///
    /// ```
    /// use goqlanis::{logos::LogoOptions, read, render::svg, EcLevel, QrCode};
    ///
    /// let code = QrCode::with_error_correction_level("01234567", EcLevel::H)?;
    /// let logo = br#"<svg xmlns="http://www.w3.org/2000/svg" viewBox="0 0 2 1"/>"#;
    /// let code = code.with_logo(logo, &LogoOptions::default())?;
    /// assert!(code.render::<svg::Color>().build().contains("<image "));
    /// assert_eq!(read(&code.to_colors())?.data, b"01234567");
    /// # Ok::<(), Box<dyn std::error::Error>>(())
    /// ```
    pub fn with_logo(&self, logo: &[u8], options: &LogoOptions) -> Result<QrCode, LogoError> {
        let ratio = ratio_of(logo).ok_or(LogoError::NoSides)?;
        let LogoOptions { area, margin, reserve, keep_alignment } = *options;
        let area = match area {
            Some(area) => area,
            None => self.largest_area(&Wish { ratio, reserve, keep_alignment })?,
        };
        let covered = self.with_area(&[area])?;
        let [across, down] = [area.width, area.height].map(|side| margin.min((side - 1) / 2));
        let area = [area.left + across, area.top + down, area.width - 2 * across, area.height - 2 * down];
        Ok(QrCode { logo: Some(Logo { area, file: logo.to_vec() }), ..covered })
    }
}

fn is_png(logo: &[u8]) -> bool {
    logo.starts_with(b"\x89PNG") && logo.len() > 24
}

// Returns the ratio of the width and height of a picture; the smaller number is at most 100.
fn ratio_of(logo: &[u8]) -> Option<(u32, u32)> {
    let side = |at: usize| f64::from(u32::from_be_bytes([logo[at], logo[at + 1], logo[at + 2], logo[at + 3]]));
    let (width, height) = if is_png(logo) { (side(16), side(20)) } else { sides(std::str::from_utf8(logo).ok()?)? };
    if !(width > 0.0 && height > 0.0) {
        return None;
    }
    Some(if width >= height {
        near(width / height)
    } else {
        let (down, across) = near(height / width);
        (across, down)
    })
}

// Returns the nearest fraction whose denominator is at most 100.
fn near(ratio: f64) -> (u32, u32) {
    let fraction = |down: u32| ((ratio * f64::from(down)).round(), down);
    let distance = |it: &(f64, u32)| (it.0 / f64::from(it.1) - ratio).abs();
    let all = (1..=100).map(fraction);
    let (across, down) = all.min_by(|one, other| distance(one).total_cmp(&distance(other))).unwrap_or((1.0, 1));
    (across as u32, down)
}

// Returns the width and height of an SVG file; comments are skipped.
fn sides(text: &str) -> Option<(f64, f64)> {
    let (first, rest) = text.split_once("<!--").unwrap_or((text, ""));
    let behind = rest.split("<!--").filter_map(|it| it.split_once("-->"));
    let text: String = iter::once(first).chain(behind.map(|it| it.1)).collect();
    let start = &text[text.find("<svg")? + 4..];
    let head = &start[..start.find('>')?];
    let view = attribute(head, "viewBox").unwrap_or("").replace(',', " ");
    let box_sides: Vec<&str> = view.split_whitespace().skip(2).collect();
    match box_sides[..] {
        [width, height] => Some((number(width)?, number(height)?)),
        _ => Some((number(attribute(head, "width")?)?, number(attribute(head, "height")?)?)),
    }
}

// Returns the value of an attribute in the start tag of an element.
fn attribute<'a>(head: &'a str, name: &str) -> Option<&'a str> {
    head.match_indices(name).find_map(|(at, _)| {
        let behind = head[at + name.len()..].trim_start().strip_prefix('=')?.trim_start();
        let quote = behind.chars().next().filter(|it| matches!(it, '"' | '\''))?;
        let is_whole = head[..at].ends_with(char::is_whitespace);
        behind[1..].split(quote).next().filter(|_| is_whole)
    })
}

// Returns the number at the beginning of a text.
fn number(text: &str) -> Option<f64> {
    let end = text.find(|it: char| !it.is_ascii_digit() && it != '.').unwrap_or(text.len());
    text[..end].parse().ok()
}

// Returns bytes in base 64.
fn base64(bytes: &[u8]) -> String {
    const ALPHABET: &[u8; 64] = b"ABCDEFGHIJKLMNOPQRSTUVWXYZabcdefghijklmnopqrstuvwxyz0123456789+/";
    let mut text = String::new();
    for chunk in bytes.chunks(3) {
        let word = (0..3).fold(0, |word, at| word << 8 | u32::from(*chunk.get(at).unwrap_or(&0)));
        for at in 0..4 {
            let sign = ALPHABET[(word >> (18 - 6 * at) & 63) as usize];
            text.push(if at <= chunk.len() { char::from(sign) } else { '=' });
        }
    }
    text
}

#[cfg(test)]
mod tests {
    use super::*;

    // The test vectors of RFC 4648.
    #[test]
    fn base_64() {
        for (bytes, text) in [("", ""), ("f", "Zg=="), ("fo", "Zm8="), ("foo", "Zm9v"), ("foobar", "Zm9vYmFy")] {
            assert_eq!(base64(bytes.as_bytes()), text);
        }
    }

    #[test]
    fn ratios() {
        let svg = |head: &str| ratio_of(format!("<?xml?><svg {head}><path/></svg>").as_bytes());
        assert_eq!(svg("viewBox=\"0 0 16,9\""), Some((16, 9)));
        assert_eq!(svg("viewBox='0 0 1 3.14159'"), Some((99, 311)));
        assert_eq!(svg("stroke-width=\"5\" width=\"12.5mm\" height = \"10mm\""), Some((5, 4)));
        assert_eq!(svg("width=\"0\" height=\"1\""), None);
        assert_eq!(svg("width=\"100%\""), None);
        assert_eq!(ratio_of(b"GIF89a"), None);
    }
}
