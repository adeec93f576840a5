use goqlanis::render::{eps, pbm, pdf, pgm, pic, png, svg, svg_path, unicode};
use goqlanis::render::{Luma, Pattern, RenderError, Renderer};
use goqlanis::several::{encode_several, join, Several, Unjoined};
use goqlanis::areas::{Excess, Rectangle};
use goqlanis::damage::{Damage, TooMuch};
use goqlanis::logos::{LogoError, LogoOptions};
use goqlanis::checking::{DataCheck, Rank, WrongModules};
use goqlanis::{missed, Missed};
use goqlanis::{check, check_square, read, read_picture, read_text, Color, EcLevel, Options, Part, Position};
use goqlanis::{QrCode, QrError, Segment, Unread};
use goqlanis::{Version, Writing};

#[test]
fn symbols() {
    let code = QrCode::new(b"01234567").unwrap();
    assert_eq!(code.version(), Version::Normal(1));
    assert_eq!(code.error_correction_level(), EcLevel::M);
    assert_eq!(code.to_vec().len(), 21 * 21);
    assert_eq!((code[(0, 0)], code[(7, 0)]), (Color::Dark, Color::Light));
    assert!(code.is_functional(0, 0) && !code.is_functional(20, 20));
    assert!(!code.is_functional(1 << 32, 0) && !code.is_functional(0, usize::MAX));
}

#[test]
fn places_outside() {
    let code = QrCode::new(b"01234567").unwrap();
    for (x, y) in [(21, 0), (0, 21), (0, usize::MAX / 21 + 1), (usize::MAX, usize::MAX)] {
        assert!(std::panic::catch_unwind(|| code[(x, y)]).is_err());
    }
}

#[test]
fn refusals() {
    let bytes = vec![b'a'; 3000];
    assert_eq!(QrCode::new(&bytes).unwrap_err(), QrError::DataTooLong);
    assert_eq!(QrCode::with_version(b"1", Version::Normal(41), EcLevel::L).unwrap_err(), QrError::InvalidVersion);
    assert_eq!(QrCode::with_version(b"1", Version::Micro(1), EcLevel::M).unwrap_err(), QrError::InvalidVersion);
    assert_eq!(QrCode::with_version(b"a", Version::Micro(1), EcLevel::L).unwrap_err(), QrError::UnsupportedCharacterSet);
}

#[test]
fn texts() {
    let text = "Größe: 5 m²";
    assert_eq!(QrCode::of_text(text, EcLevel::M).unwrap().version(), Version::Normal(1));
    assert_eq!(QrCode::of_marked_text(text, EcLevel::M).unwrap().version(), Version::Normal(2));
}

#[test]
fn pictures() {
    let code = QrCode::with_version(b"01234567", Version::Micro(2), EcLevel::L).unwrap();
    assert_eq!(code.render::<Luma>().module_size(2).build().len(), 34 * 34);
    assert_eq!(code.render::<Luma>().module_size(1).quiet_zone(false).build().len(), 13 * 13);
    assert_eq!(code.render::<unicode::Dense1x2>().build().lines().count(), 9);
    let (dark, light) = (unicode::Dense1x2::Dark, unicode::Dense1x2::Light);
    assert!(code.render::<unicode::Dense1x2>().dark_color(light).light_color(dark).build().starts_with('█'));
    assert_eq!(code.render::<Luma>().min_dimensions(200, 100).build().len(), 204 * 204);
    assert_eq!(code.render::<Luma>().max_dimensions(200, 300).build().len(), 187 * 187);
    assert_eq!(code.render::<Luma>().max_dimensions(3, 3).build().len(), 17 * 17);
    let chars = code.render::<char>().quiet_zone(false).dark_color('#').light_color('.').build();
    assert_eq!(chars.lines().map(|line| line.len()).collect::<Vec<_>>(), [13; 13]);
    assert!(chars.starts_with("#######.#.#.#\n#.....#."));
    assert!(code.render::<char>().module_size(2).build().starts_with(&format!("{}\n", " ".repeat(34))));
    assert!(code.render::<svg::Color>().build().starts_with("<?xml"));
    assert!(code.render::<png::Color>().build().starts_with(b"\x89PNG\r\n\x1a\n"));
    assert!(code.render::<eps::Color>().build().starts_with("%!PS-Adobe-3.0 EPSF-3.0\n"));
    assert!(code.render::<pbm::Bit>().module_size(1).build().starts_with(b"P4\n17 17\n"));
    assert!(code.render::<pgm::Grey>().module_size(1).build().starts_with(b"P5\n17 17\n255\n\xff"));
    assert!(code.render::<pic::Color>().build().starts_with("maxpswid"));
}

#[test]
fn colours() {
    let code = QrCode::new(b"01234567").unwrap();
    let (blue, none) = (png::Color([0, 128, 255, 255]), png::Color([255, 255, 255, 0]));
    let has = |file: &[u8], bytes: &[u8]| file.windows(bytes.len()).any(|part| part == bytes);
    let file = code.render::<png::Color>().dark_color(blue).light_color(none).dots_per_inch(300).build();
    assert!(has(&file, b"PLTE\x00\x80\xff\xff\xff\xff") && has(&file, b"tRNS\xff\x00"));
    assert!(has(&file, b"pHYs\x00\x00\x2e\x23\x00\x00\x2e\x23\x01"));
    let text = code.render().dark_color(svg_path::Color("navy")).light_color(svg_path::Color("a<\"&")).build();
    assert!(text.contains("fill=\"navy\"") && text.contains("fill=\"a&lt;&quot;&amp;\"") && !text.contains("fill=\"#"));
    let text = code.render().dark_color(svg::Color("#800000")).light_color(svg::Color("#ffff80")).build();
    assert!(text.contains("fill=\"#800000\"") && text.contains("fill=\"#ffff80\""));
    let red = eps::Color { red: 255, green: 0, blue: 0 };
    assert!(code.render().dark_color(red).build().contains("255 255 div 0 255 div 0 255 div setrgbcolor"));
    assert!(code.render::<svg::Color>().build().contains("fill=\"#000\""));
}

#[test]
fn colours_of_patterns() {
    let code = QrCode::new(b"01234567").unwrap();
    let paths = |tone| {
        let mut renderer = code.render();
        renderer.pattern_color(Pattern::Finder, tone, svg_path::Color("a<")).pattern_color(Pattern::Data, tone, svg_path::Color("navy"));
        let text = renderer.build();
        let fills = text.split("fill=\"").skip(1).filter_map(|it| it.split('"').next().map(str::to_owned));
        fills.filter(|it| it != "none").collect::<Vec<_>>()
    };
    assert_eq!(paths(Color::Dark), ["#fff", "#000", "a&lt;", "navy"]);
    assert_eq!(paths(Color::Light), ["#fff", "#000", "a&lt;", "navy"]);
    // The top left module is of a finder pattern; the quiet zone is of none.
    let (red, none) = (png::Color([255, 0, 0, 255]), png::Color([255, 255, 255, 0]));
    let file = code.render().pattern_color(Pattern::Finder, Color::Dark, red).pattern_color(Pattern::Timing, Color::Light, none).build();
    assert_eq!(read_picture(&file).unwrap()[0].reading.data, b"01234567");
    let large = |size| code.render().module_size(size).pattern_color(Pattern::Finder, Color::Dark, red).try_build();
    assert_eq!((large(283), large(282).is_ok()), (Err(RenderError::TooLarge), true));
    let file = code.render().pattern_color(Pattern::Finder, Color::Dark, pdf::Color([255, 0, 0])).build();
    assert!(String::from_utf8_lossy(&file).contains("\n1.000000 0.000000 0.000000 rg\n4 4 7 1 re\n18 4 7 1 re\n"));
    let (dark, three) = (Color::Dark, [Color::Dark; 9]);
    assert!(Renderer::new(&three, 3, 0).pattern_color(Pattern::Data, dark, red).try_build() == Err(RenderError::NoPatterns));
}

#[test]
fn damage() {
    let code = QrCode::with_version(b"01234567", Version::Normal(1), EcLevel::H).unwrap();
    let with = |codewords, format_bits, version_bits| code.damaged(&Damage { codewords, format_bits, version_bits, seed: 7, ..Damage::default() });
    let whole = with(0, 0, 0).unwrap();
    assert_eq!((whole.code, whole.is_promised, whole.most_codewords), (code.clone(), true, 8));
    assert!(!with(9, 0, 0).unwrap().is_promised && !with(0, 4, 0).unwrap().is_promised);
    assert_eq!((with(27, 16, 1), with(26, 16, 1)), (Err(TooMuch::Codewords), Err(TooMuch::FormatBits)));
    assert_eq!(with(26, 15, 1), Err(TooMuch::VersionBits));
    let dirty = |pattern_modules| code.damaged(&Damage { pattern_modules, ..Damage::default() });
    assert!(dirty(203).unwrap().is_promised && dirty(204) == Err(TooMuch::PatternModules));
    // Beside a whole code, a code of nine wrong codewords.
    let grey = |code: &QrCode| code.render::<pgm::Grey>().module_size(1).build()[b"P5\n29 29\n255\n".len()..].to_vec();
    let (left, right) = (grey(&code), grey(&with(9, 0, 0).unwrap().code));
    let rows = left.chunks(29).zip(right.chunks(29)).flat_map(|(left, right)| [left, right].concat());
    let picture: Vec<u8> = b"P5\n58 29\n255\n".iter().copied().chain(rows).collect();
    assert_eq!(missed(&picture).unwrap(), [Missed { width: 21, left: 33, top: 4, why: Unread::Damaged }]);
    assert_eq!(missed(b"hello"), Err(Unread::NotPicture));
}

#[test]
fn too_large() {
    let code = QrCode::new(b"01234567").unwrap();
    assert_eq!(code.render::<png::Color>().module_size(2260).try_build(), Err(RenderError::TooLarge));
    assert_eq!(code.render::<unicode::Dense1x2>().module_size(142).try_build(), Err(RenderError::TooLarge));
    let characters = |width, height| code.render::<char>().module_dimensions(width, height).try_build();
    assert_eq!((characters(142, 1), characters(1, 142)), (Err(RenderError::TooLarge), Err(RenderError::TooLarge)));
    assert_eq!(code.render::<pbm::Bit>().module_size(565).try_build(), Err(RenderError::TooLarge));
}

#[test]
fn names_of_the_crate_qrcode() {
    let code = QrCode::new(b"01234567").unwrap();
    let lines = code.render::<char>().quiet_zone(false).module_dimensions(2, 1).build();
    assert!(lines.starts_with("██████████████") && lines.lines().count() == 21);
    assert!(code.to_debug_str('#', '.').starts_with("#######.") && code.to_vec() == code.clone().into_vec());
    assert_eq!((code.clone().into_colors(), !Color::Dark), (code.to_colors(), Color::Light));
    assert_eq!(goqlanis::types::Color::Dark.select(1, 2), 1);
    assert!(code == QrCode::new(b"01234567").unwrap() && code != QrCode::new(b"1").unwrap());
    let one = code.render().dark_color(unicode::Dense1x2::Dark).light_color(unicode::Dense1x2::Dark).build();
    assert!(one.starts_with(&"█".repeat(29)) && one.ends_with(&"▀".repeat(29)));
}

#[test]
fn options() {
    let given = |version, min_version| Options { version, min_version, ..Options::default() };
    let made = |options| QrCode::with_options("01234567890123456", &options);
    let boosted = made(Options { ec_level: EcLevel::L, boost: true, ..Options::default() }).unwrap();
    assert_eq!((boosted.version(), boosted.error_correction_level()), (Version::Normal(1), EcLevel::H));
    let (first, ninth) = (Version::Normal(1), Version::Normal(9));
    let code = made(given(Some(ninth), first)).unwrap();
    assert_eq!((code.version(), code.mask()), (ninth, read(&code.to_colors()).unwrap().mask));
    assert_eq!(made(given(None, ninth)).unwrap().version(), ninth);
    assert_eq!(made(given(Some(Version::Normal(0)), first)).unwrap_err(), QrError::InvalidVersion);
    let text = Options { writing: Writing::Text, ..Options::default() };
    assert_eq!(QrCode::with_options(b"\xff", &text).unwrap_err(), QrError::InvalidCharacter);
    let masked = |number| made(Options { mask: Some(number), ..Options::default() });
    assert_eq!(masked(5).unwrap().mask(), 5);
    assert_eq!(masked(8).unwrap_err(), QrError::InvalidVersion);
    assert_eq!(masked(u32::MAX).unwrap_err(), QrError::InvalidVersion);
}

#[test]
fn several() {
    let squares = |data: &str, count| -> Vec<_> {
        let codes = encode_several(data, &Several { count: Some(count), ..Several::default() });
        codes.unwrap().iter().map(QrCode::to_colors).collect()
    };
    let (ab, cd) = (squares("abab", 2), squares("cdcd", 2));
    assert_eq!(join(&[&ab[1], &ab[0]]), Ok(b"abab".to_vec()));
    assert_eq!(join(&[&ab[0], &cd[1]]), Err(Unjoined::Parity));
    assert_eq!(join(&ab[..1]), Err(Unjoined::Missing(1)));
    assert_eq!(join(&[&ab[0], &ab[0]]), Err(Unjoined::Twice(0)));
    assert_eq!(join(&[&ab[0], &squares("abc", 3)[0]]), Err(Unjoined::Stranger(1)));
    assert_eq!(join(&[&ab[0], &squares("abab", 1)[0]]), Err(Unjoined::NotSeveral(1)));
    let empty = vec![];
    assert_eq!(join(&[&ab[0], &empty]), Err(Unjoined::Square(1, Unread::NoSuchSide)));
    let refused = |several| encode_several(b"\xff", &several).unwrap_err();
    let plain = Several::default();
    assert_eq!(refused(Several { count: Some(17), ..plain }), QrError::DataTooLong);
    assert_eq!(refused(Several { count: Some(0), ..plain }), QrError::DataTooLong);
    assert_eq!(refused(Several { is_text: true, ..plain }), QrError::InvalidCharacter);
    assert_eq!(refused(Several { min_version: Version::Micro(1), ..plain }), QrError::InvalidVersion);
}

#[test]
fn segments() {
    let segments = [Segment::Eci(26), Segment::Byte("é".as_bytes()), Segment::Numeric(b"123")];
    assert_eq!(QrCode::with_segments(&segments, Version::Normal(1), EcLevel::M).unwrap().width(), 21);
    assert_eq!(QrCode::of_segments(&segments, EcLevel::M).unwrap().version(), Version::Normal(1));
    assert_eq!(Version::least_of_segments(&[Segment::Byte(&[0; 2954])], EcLevel::L), Err(QrError::DataTooLong));
    let refused = |segment: Segment<'_>| QrCode::with_segments(&[segment], Version::Normal(1), EcLevel::M).unwrap_err();
    assert_eq!(refused(Segment::Numeric(b"12a")), QrError::InvalidCharacter);
    assert_eq!(refused(Segment::Eci(1_000_000)), QrError::InvalidEciDesignator);
    assert_eq!(QrCode::with_segments(&[Segment::Fnc1First], Version::Micro(4), EcLevel::M).unwrap_err(), QrError::UnsupportedCharacterSet);
}

#[test]
fn readings() {
    let code = QrCode::with_version(b"01234567", Version::Micro(2), EcLevel::L).unwrap();
    let found = read(&code.to_colors()).unwrap();
    assert_eq!((found.data, found.version, found.ec_level, found.wrong), (b"01234567".to_vec(), Version::Micro(2), EcLevel::L, 0));
    assert_eq!(read(&[Color::Dark; 440]).unwrap_err(), Unread::NoSuchSide);
    assert_eq!(read(&[Color::Dark; 441]).unwrap_err(), Unread::NoFormat);
    let bytes = QrCode::new(b"\xff").unwrap();
    assert_eq!(read_text(&bytes.to_colors()).unwrap_err(), Unread::NotShown);
    let header = QrCode::with_segments(&[Segment::Fnc1First, Segment::Numeric(b"0109501101530003")], Version::Normal(1), EcLevel::M).unwrap();
    assert_eq!(read(&header.to_colors()).unwrap_err(), Unread::NotSpelled);
}

// Three symbols one below the other.
#[test]
fn codes_of_pictures() {
    let drawn = |data: &&str| QrCode::new(data).unwrap().render::<Luma>().module_size(3).build();
    let squares: Vec<_> = ["first", "middle", "below"].iter().map(drawn).collect();
    let file = [b"P5 87 261 255\n".to_vec(), squares.concat()].concat();
    let codes = read_picture(&file).unwrap();
    let data: Vec<_> = codes.iter().map(|code| code.reading.data.as_slice()).collect();
    assert_eq!(data, [&b"first"[..], b"middle", b"below"]);
    assert!(codes.iter().all(|code| code.position == Position(0) && code.reading.wrong == 0));
    assert_eq!((codes[0].position.to_string(), Position(9).to_string()), ("upright".into(), "rotated left, inverted".into()));
    assert_eq!(codes[1].parts, [Part::Byte(6)]);
    assert!(check(&file).unwrap().iter().all(|it| it.is_standard && it.wrong_by_block == [0]));
    assert_eq!(read_picture(b"hello").unwrap_err(), Unread::NotPicture);
    assert_eq!(read_picture(&vec![0; (1 << 26) + 1]).unwrap_err(), Unread::LargePicture);
}

// A square of 21 rows of modules as numbers, the first module highest of 24 bits.
fn square_of(rows: &[u32; 21]) -> Vec<Color> {
    let dark = |i: usize| rows[i / 21] >> (23 - i % 21) & 1 == 1;
    (0..441).map(|i| if dark(i) { Color::Dark } else { Color::Light }).collect()
}

// Squares of zint and segno from evidence/program/symbols, which says what is wrong with them.
const TURNED: [u32; 21] = [
    0x7E63F8, 0x82AA08, 0xBA62E8, 0xBA2AE8, 0xBA9AE8, 0x827208, 0xFE8BF8, 0x000000, 0x2A6890, 0x0D7570,
    0xEBB760, 0x7C3D98, 0x4E3730, 0x006338, 0xFE0888, 0x826310, 0xBA8AD0, 0xBA5490, 0xBAB688, 0x821D98,
    0xFE9660,
];
const JOINED: [u32; 21] = [
    0xFE4BF8, 0x829208, 0xBA42E8, 0xBA92E8, 0xBA3AE8, 0x82EA08, 0xFEABF8, 0x003800, 0xFBCD50, 0x60A918,
    0xBF74E8, 0x3021A0, 0x57D4B0, 0x00DF20, 0xFEEB38, 0x825F40, 0xBA8920, 0xBA8940, 0xBAD580, 0x82A070,
    0xFE9580,
];

#[test]
fn checks() {
    let found = check_square(&square_of(&TURNED)).unwrap();
    assert_eq!((found.version, found.ec_level, found.mask), (Version::Normal(1), EcLevel::M, 0));
    assert_eq!((found.wrong_by_block.as_slice(), found.allowed_by_block), (&[2][..], 4));
    assert_eq!((found.unused_correction, found.grade, found.is_standard), (50, 'B', false));
    let wanted = WrongModules { finder: 1, timing: 1, format: 2, ..WrongModules::default() };
    assert_eq!((found.wrong_modules, found.data.unwrap().bits), (wanted, Some((57, 57))));
    assert_eq!(
        found.to_string(),
        "version 1, level M, mask 0\nwrong codewords in each block: 2; the standard allows 4\n\
         unused error correction: 50 %, grade B\nwrong modules outside the data: finder 1, \
         alignment 0, timing 1, format 2, version 0, remainder 0\ndata: 57 bits, 0 more than needed\n\
         wrong bits after the data: terminator 0, padding 0\n\
         segments whose character set readers guess: 0"
    );
    let code = QrCode::new("Größe").unwrap();
    let found = check(code.render::<unicode::Dense1x2>().build().as_bytes()).unwrap();
    assert!(found.len() == 1 && found[0].is_standard && found[0].masks_here == Rank::default());
    assert!(found[0].to_string().contains("guess: 1, UTF-8\nmasks with a lower penalty: 0"));
    let joined = check_square(&square_of(&JOINED)).unwrap();
    assert_eq!((joined.data, joined.is_standard), (None, false));
    assert!(joined.to_string().contains("\ndata: its bits are not segments and a terminator\nmasks with "));
    let fewer = DataCheck { bits: Some((1, 2)), ..found[0].data.unwrap() };
    assert!(fewer.to_string().starts_with("data: 1 bits, 0 more"));
}

#[test]
fn parts_of_codes() {
    let parts = [Segment::Eci(9), Segment::Byte(b"a"), Segment::Fnc1Second(37), Segment::Alphanumeric(b"A%%")];
    let code = QrCode::with_segments(&parts, Version::Normal(2), EcLevel::M).unwrap();
    let found = read_picture(&code.render::<png::Color>().build()).unwrap();
    let wanted = [Part::Eci(9), Part::Byte(1), Part::Fnc1Second(37), Part::Alphanumeric(3)];
    assert_eq!((found[0].parts.as_slice(), found[0].reading.data.as_slice()), (&wanted[..], &b"aA%"[..]));
    let two = Several { count: Some(2), ..Several::default() };
    let second = &encode_several("12", &two).unwrap()[1];
    let found = read_picture(second.render::<unicode::Dense1x2>().build().as_bytes()).unwrap();
    let parity = b'1' ^ b'2';
    assert_eq!(found[0].parts, [Part::OneOfSeveral { place: 1, symbols: 2, parity }, Part::Numeric(1)]);
}

#[test]
fn logos() {
    let code = QrCode::with_error_correction_level("01234567", EcLevel::H).unwrap();
    let logo = br#"<svg xmlns="http://www.w3.org/2000/svg" viewBox="0 0 1 1"/>"#;
    let area = Some(Rectangle { left: 9, top: 9, width: 3, height: 3 });
    let covered = code.with_logo(logo, &LogoOptions { area, ..LogoOptions::default() }).unwrap();
    // The module in the middle, with a margin of one, behind a quiet zone of four.
    let path = covered.render::<svg_path::Color>().build();
    assert!(path.contains(r#"<image x="14" y="14" width="1" height="1" href="data:image/svg+xml;base64,PHN2Zy"#));
    let text = covered.render::<svg::Color>().module_size(2).quiet_zone(false).build();
    assert!(text.contains(r#"<image x="20" y="20" width="2" height="2" href="#) && text.ends_with("/></svg>"));
    let text = covered.render().pattern_color(Pattern::Finder, Color::Dark, svg_path::Color("navy")).build();
    assert_eq!(text.matches("<image").count(), 1);
    assert_eq!(covered.render::<Luma>().build(), code.with_area(&[area.unwrap()]).unwrap().render::<Luma>().build());
    assert_eq!(read(&covered.to_colors()).unwrap().data, b"01234567");
    // PNG shows a PNG file, and leaves the area of others light.
    let file = code.render::<png::Color>().build();
    let options = LogoOptions { area, ..LogoOptions::default() };
    let inked = |logo: &[u8]| code.with_logo(logo, &options).unwrap().render::<png::Color>().try_build();
    assert_ne!(inked(&file).unwrap(), inked(logo).unwrap());
    assert_eq!(read_picture(&inked(&file).unwrap()).unwrap()[0].reading.data, b"01234567");
    assert_eq!(inked(&file[..99]), Err(RenderError::BrokenLogo));
    assert!(code.with_logo(b"\x89PNG\r\n\x1a\n\0\0\0\x0dIHDR\0\0\0\x10\0\0\0\x09\x08", &LogoOptions::default()).is_ok());
    let wide = br#"<!-- <svg viewBox="0 0 1 1"> --><svg viewBox="0 0 3 1"/>"#;
    let alone = |logo: &[u8]| code.with_logo(logo, &LogoOptions::default()).unwrap().to_colors();
    assert!(alone(wide) == alone(&wide[32..]) && alone(wide) != alone(logo));
    assert_eq!(code.with_logo(b"GIF89a", &LogoOptions::default()).unwrap_err(), LogoError::NoSides);
    let whole = LogoOptions { reserve: Some(u32::MAX), ..LogoOptions::default() };
    assert_eq!(code.with_logo(logo, &whole).unwrap_err(), LogoError::Area(Excess::Nowhere));
    let outside = LogoOptions { area: Some(Rectangle { left: 20, top: 0, width: 2, height: 1 }), ..LogoOptions::default() };
    assert_eq!(code.with_logo(logo, &outside).unwrap_err(), LogoError::Area(Excess::Outside));
    let many = vec![Rectangle { left: 9, top: 9, width: 1, height: 1 }; 31_330];
    assert!(code.reserve(&many).unwrap_err().to_string().contains("or up to 31,329: left, top"));
    assert!(code.reserve(&many[1..]).is_ok());
}
