//! Draws symbols: characters, half blocks, SVG, PIC, EPS, PNG, PBM, PGM, rows of grey pixels and
//! more.
use crate::logos::Logo;
use crate::{Color, QrCode};
use goqlanis_sys as sys;

answers! {
    /// Why a picture cannot be drawn.
    RenderError:
    /// A PNG file would have more than 65,535 pixels per side, rows of pixels or dots more than
    /// 16,384, half blocks or characters more than 4,096, or any picture more than 65,535 modules
    /// per side. With colours of patterns or a logo, a PNG file has at most 8,192.
    TooLarge = GOQ_NO_SUCH_SIZE: "the picture would be too large: take a smaller module size",
    /// Patterns have colours, and no version has that many modules per side.
    NoPatterns = GOQ_NO_SUCH_SIDE: "no version has that many modules: only codes have patterns",
    /// The PNG file of the logo is damaged, interlaced or too large.
    BrokenLogo = GOQ_NOT_PICTURE | GOQ_BROKEN_PICTURE:
        "the logo is damaged, interlaced or too large: save it again",
}

/// A format of pictures: one of the types of this module, or one of yours with its own `Canvas`. A
/// value is the colour, or whatever the format has instead, of dark or light modules.
///
/// ```
/// use goqlanis::render::{Canvas, Pixel};
/// use goqlanis::{Color, QrCode};
///
/// #[derive(Clone, Copy)]
/// struct Count(usize);
/// struct Counter(usize, Count);
///
/// impl Pixel for Count {
///     type Image = usize;
///     type Canvas = Counter;
///     fn default_unit_size() -> (u32, u32) { (1, 1) }
///     fn default_color(color: Color) -> Self { Count(color.select(1, 0)) }
/// }
///
/// impl Canvas for Counter {
///     type Pixel = Count;
///     type Image = usize;
///     fn new(_width: u32, _height: u32, dark: Count, _light: Count) -> Self { Counter(0, dark) }
///     fn draw_dark_pixel(&mut self, _x: u32, _y: u32) { self.0 += self.1 .0; }
///     fn into_image(self) -> usize { self.0 }
/// }
///
/// let code = QrCode::new(b"01234567").unwrap();
/// let dark = code.to_colors().iter().filter(|it| **it == Color::Dark).count();
/// assert_eq!(code.render::<Count>().module_size(2).build(), 4 * dark);
/// ```
pub trait Pixel: Copy {
    /// The type of a picture.
    type Image;

    /// What the picture is drawn on.
    type Canvas: Canvas<Pixel = Self, Image = Self::Image>;

    /// Returns the default pixels per module, across and down.
    fn default_unit_size() -> (u32, u32) {
        (8, 8)
    }

    /// Returns the default colour of dark or light modules.
    fn default_color(color: Color) -> Self;

    #[doc(hidden)]
    fn picture(renderer: &Renderer<'_, Self>) -> Result<Self::Image, RenderError> {
        Ok(renderer.on_canvas())
    }
}

/// What a picture is drawn on, light at first, by its dark modules.
pub trait Canvas: Sized {
    /// The type of a colour.
    type Pixel: Sized;

    /// The type of a picture.
    type Image: Sized;

    /// Returns a light canvas of that many pixels.
    fn new(width: u32, height: u32, dark_pixel: Self::Pixel, light_pixel: Self::Pixel) -> Self;

    /// Makes a pixel dark.
    fn draw_dark_pixel(&mut self, x: u32, y: u32);

    /// Makes the pixels of a rectangle dark.
    fn draw_dark_rect(&mut self, left: u32, top: u32, width: u32, height: u32) {
        for y in top..top + height {
            for x in left..left + width {
                self.draw_dark_pixel(x, y);
            }
        }
    }

    /// Returns the picture.
    fn into_image(self) -> Self::Image;
}

/// The canvas of the formats that the library draws: nothing draws on it.
pub struct OfLibrary<P>(std::convert::Infallible, std::marker::PhantomData<P>);

impl<P: Pixel> Canvas for OfLibrary<P> {
    type Pixel = P;
    type Image = P::Image;

    fn new(_width: u32, _height: u32, _dark_pixel: P, _light_pixel: P) -> Self {
        unreachable!("the library draws this format")
    }

    fn draw_dark_pixel(&mut self, _x: u32, _y: u32) {}

    fn into_image(self) -> P::Image {
        match self.0 {}
    }
}

/// A pattern of a code, or its data, for `Renderer::pattern_color`.
#[derive(Clone, Copy, Debug, PartialEq, Eq)]
pub enum Pattern {
    /// Finder patterns, and the light modules around them.
    Finder,
    /// Alignment patterns.
    Alignment,
    /// Timing patterns.
    Timing,
    /// Format information, and the dark module next to it.
    Format,
    /// Version information.
    Version,
    /// Data and error correction.
    Data,
}

/// A format in which patterns may have colours of their own.
pub trait HasPatterns: Pixel {}

impl HasPatterns for png::Color {}
impl HasPatterns for svg_path::Color<'_> {}
impl HasPatterns for eps::Color {}
impl HasPatterns for pdf::Color {}

/// Draws a symbol with its settings; `QrCode::render` makes one.
#[derive(Clone, Copy, Debug)]
pub struct Renderer<'a, P> {
    modules: &'a [u8],
    width: usize,
    zone: u32,
    whole_zone: u32,
    across: u32,
    down: u32,
    dark: P,
    light: P,
    // Of dark and of light modules of each pattern.
    own: [Option<P>; 12],
    dpi: u32,
    logo: Option<&'a Logo>,
}

impl<'a, P: Pixel> Renderer<'a, P> {
    pub(crate) fn of(code: &'a QrCode, zone: u32) -> Self {
        Renderer { logo: code.logo.as_ref(), ..Self::with(&code.modules, code.width, zone) }
    }

    /// Draws a square of modules, e.g. of `QrCode::to_colors`, with `modules_count` of them per side
    /// and a quiet zone.
    ///
    /// # Panics
    ///
    /// Panics if `content` does not have `modules_count * modules_count` modules.
    pub fn new(content: &'a [Color], modules_count: usize, quiet_zone: u32) -> Self {
        assert_eq!(Some(content.len()), modules_count.checked_mul(modules_count));
        // SAFETY: a `Color` is a byte.
        let modules = unsafe { std::slice::from_raw_parts(content.as_ptr().cast(), content.len()) };
        Self::with(modules, modules_count, quiet_zone)
    }

    fn with(modules: &'a [u8], width: usize, zone: u32) -> Self {
        let (across, down) = P::default_unit_size();
        Renderer {
            modules,
            width,
            zone,
            whole_zone: zone,
            across,
            down,
            dark: P::default_color(Color::Dark),
            light: P::default_color(Color::Light),
            own: [None; 12],
            dpi: 0,
            logo: None,
        }
    }

    /// Sets the colour, or the character, of dark modules.
    pub fn dark_color(&mut self, color: P) -> &mut Self {
        self.dark = color;
        self
    }

    /// Sets the colour, or the character, of light modules and the quiet zone.
    pub fn light_color(&mut self, color: P) -> &mut Self {
        self.light = color;
        self
    }

    /// Switches the quiet zone on or off.
    pub fn quiet_zone(&mut self, has_quiet_zone: bool) -> &mut Self {
        self.zone = if has_quiet_zone { self.whole_zone } else { 0 };
        self
    }

    /// Sets the pixels per module, across and down, 1 to 65,535. Other numbers are clamped.
    pub fn module_size(&mut self, size: u32) -> &mut Self {
        self.across = size.clamp(1, 65_535);
        self.down = self.across;
        self
    }

    /// Sets the smallest module size for which the picture has at least this many pixels across and
    /// down. A module is as wide as it is high.
    pub fn min_dimensions(&mut self, width: u32, height: u32) -> &mut Self {
        let side = self.side();
        self.module_size((width.max(height).max(1) - 1) / side + 1)
    }

    /// Sets the largest module size for which the picture has at most this many pixels across and
    /// down, but at least 1.
    pub fn max_dimensions(&mut self, width: u32, height: u32) -> &mut Self {
        let side = self.side();
        self.module_size(width.min(height) / side)
    }

    // Draws the picture on a canvas, a rectangle for each dark module.
    fn on_canvas(&self) -> P::Image {
        let (across, down, side) = (self.across, self.down, self.side());
        let mut canvas = P::Canvas::new(side * across, side * down, self.dark, self.light);
        for (at, _) in self.modules.iter().enumerate().filter(|it| *it.1 != 0) {
            let (x, y) = ((at % self.width) as u32 + self.zone, (at / self.width) as u32 + self.zone);
            canvas.draw_dark_rect(x * across, y * down, across, down);
        }
        canvas.into_image()
    }

    // Returns the number of modules per side, with the quiet zone.
    fn side(&self) -> u32 {
        self.width as u32 + 2 * self.zone
    }

    /// Draws the picture.
    ///
    /// # Panics
    ///
    /// Panics if `try_build` returns an error.
    pub fn build(&self) -> P::Image {
        self.try_build().unwrap_or_else(|error| panic!("{error}"))
    }

    /// Draws the picture, as `build` does.
    ///
    /// # Panics
    ///
    /// Panics if `try_build` returns an error.
    pub fn to_image(&self) -> P::Image {
        self.build()
    }

    /// Draws the picture, or returns an error if it would be too large or memory runs out.
    pub fn try_build(&self) -> Result<P::Image, RenderError> {
        P::picture(self)
    }

    // Rejects a picture with more pixels per side than the format may have; the largest PPM file
    // takes 0.8 GB.
    fn check_side(&self, format: u32) -> Result<(), RenderError> {
        let pixels = u64::from(self.side()) * u64::from(self.across.max(self.down));
        let is_too_large = SIDES.iter().any(|row| row.0 == format && u64::from(row.1) < pixels);
        if is_too_large { Err(RenderError::TooLarge) } else { Ok(()) }
    }

    // Draws the picture in a format of the library; `word` returns its number of a colour.
    fn colored(&self, format: u32, word: impl Fn(P) -> u32) -> Result<Vec<u8>, RenderError> {
        // The highest two numbers are both of transparent colours.
        let own = self.own.map(|it| it.map_or(sys::GOQ_SAME, |it| word(it).min(sys::GOQ_SAME - 1)));
        self.drawn(format, word(self.dark), word(self.light), own)
    }

    // Draws the picture in a format of the library, in these colours.
    fn drawn(&self, format: u32, dark: u32, light: u32, own: [u32; 12]) -> Result<Vec<u8>, RenderError> {
        self.check_side(format)?;
        let [finder_dark, finder_light, alignment_dark, alignment_light, timing_dark, timing_light, ..] = own;
        let [.., format_dark, format_light, version_dark, version_light, data_dark, data_light] = own;
        let (size, zone, scale, dpi) = (sys::GOQ_DRAWING.size, self.zone, self.across, self.dpi);
        let drawing = sys::goq_drawing {
            size, format, zone, scale, dark, light, dpi,
            finder_dark, finder_light, alignment_dark, alignment_light, timing_dark, timing_light,
            format_dark, format_light, version_dark, version_light, data_dark, data_light,
        };
        let (modules, length, width) = (self.modules.as_ptr(), self.modules.len(), self.width as u32);
        let logo = self.logo.filter(|_| format == sys::GOQ_PNG);
        let logo = logo.and_then(|it| Some((&it.file, it.area_of_png()?)));
        let pixels = (u64::from(self.side()) * u64::from(self.across)).min(8192) as usize;
        let mut count = 8 * pixels * pixels + 1000;
        if logo.is_none() {
            // SAFETY: the lengths are those of the buffers.
            RenderError::accept(unsafe { sys::goq_draw_with_length(modules, length, width, &drawing, &mut count) })?;
        }
        let mut bytes = Vec::new();
        bytes.try_reserve_exact(count).map_err(|_| RenderError::OutOfMemory)?;
        bytes.resize(count, 0);
        let out = bytes.as_mut_ptr();
        // SAFETY: the same.
        RenderError::accept(unsafe {
            match &logo {
                None => sys::goq_draw_with(modules, length, width, &drawing, out, count, &mut count),
                Some((file, area)) => {
                    let (file, size) = (file.as_ptr(), file.len());
                    sys::goq_draw_logo(modules, length, width, &drawing, file, size, area, out, count, &mut count)
                }
            }
        })?;
        bytes.truncate(count);
        Ok(bytes)
    }

    // Draws the picture in a format of the library, black on white.
    fn plain(&self, format: u32) -> Result<Vec<u8>, RenderError> {
        self.drawn(format, sys::GOQ_DRAWING.dark, sys::GOQ_DRAWING.light, [sys::GOQ_SAME; 12])
    }

    // Draws the picture in a text format of the library, black on white.
    fn text(&self, format: u32) -> Result<String, RenderError> {
        Ok(String::from_utf8(self.plain(format)?).expect("the library writes UTF-8"))
    }
}

// How a type is drawn: the type of a picture, the default pixels per module, the default colours,
// and the picture.
macro_rules! pixel {
    (
        $(#[$about:meta])*
        $type:ty: $image:ty, $size:expr,
        |$is_dark:ident| $color:expr,
        |$renderer:ident| $picture:expr
    ) => {
        $(#[$about])*
        impl Pixel for $type {
            type Image = $image;
            type Canvas = OfLibrary<Self>;
            fn default_unit_size() -> (u32, u32) {
                ($size, $size)
            }
            fn default_color(color: Color) -> Self {
                let $is_dark = color == Color::Dark;
                $color
            }
            fn picture($renderer: &Renderer<'_, Self>) -> Result<$image, RenderError> {
                $picture
            }
        }
    };
}

// A format without colours.
macro_rules! file_format {
    ($about:literal, $module:ident::$type:ident, $image:ty, $size:expr, $number:ident, $drawn:ident) => {
        #[doc = $about]
        pub mod $module {
            #[doc = $about]
            #[derive(Clone, Copy, Debug, Default, PartialEq, Eq)]
            pub struct $type;
        }
        pixel! { $module::$type: $image, $size,
            |_is_dark| $module::$type,
            |renderer| renderer.$drawn(sys::$number)
        }
    };
}

file_format!("PIC text, for troff.", pic::Color, String, 8, GOQ_PIC, text);
file_format!("The bytes of a PBM file.", pbm::Bit, Vec<u8>, 8, GOQ_PBM, plain);
file_format!("The bytes of a PGM file.", pgm::Grey, Vec<u8>, 8, GOQ_PGM, plain);
file_format!("Rows of pixels, a byte each: 0 for a dark pixel, 255 for a light one.", grey::Luma, Vec<u8>, 8, GOQ_GREY, plain);

pub use grey::Luma;

// Returns black or white.
fn grey(is_dark: bool) -> u8 {
    if is_dark { 0 } else { 255 }
}

// Returns a colour as the library takes it: transparency, red, green and blue.
fn word(parts: [u8; 4]) -> u32 {
    u32::from_be_bytes(parts)
}

// A format with colours of red, green and blue, from 0 to 255.
macro_rules! colour_format {
    ($about:literal, $module:ident, $number:ident) => {
        #[doc = $about]
        pub mod $module {
            /// Red, green and blue, each from 0 to 255.
            #[derive(Clone, Copy, Debug, PartialEq, Eq)]
            pub struct Color(pub [u8; 3]);
        }
        pixel! { $module::Color: Vec<u8>, 8,
            |is_dark| $module::Color([grey(is_dark); 3]),
            |renderer| {
                renderer.colored(sys::$number, |$module::Color([red, green, blue])| word([0, red, green, blue]))
            }
        }
    };
}

// Formats of goqlanis.h, and the most pixels of a side, as bindings/same writes them.
include!("formats.in");

// An SVG format, whose colours are text, and the units of its view box that a module of this number
// of pixels has.
macro_rules! svg_format {
    ($about:literal, $module:ident, $number:ident, $unit:expr) => {
        #[doc = $about]
        pub mod $module {
            #[doc = $about]
            #[derive(Clone, Copy, Debug, PartialEq, Eq)]
            pub struct Color<'a>(pub &'a str);
        }
        impl Named for $module::Color<'_> {
            fn name(&self) -> &str {
                self.0
            }
        }
        pixel! { $module::Color<'_>: String, 8,
            |is_dark| $module::Color(if is_dark { "#000" } else { "#fff" }),
            |renderer| {
                let text = filled(renderer, sys::$number)?;
                let (zone, unit) = (renderer.zone as usize, $unit(renderer.across as usize));
                Ok(match renderer.logo {
                    Some(logo) => logo.over(&text, zone, unit),
                    None => text,
                })
            }
        }
    };
}

svg_format!("A CSS colour in an SVG file, e.g. `svg::Color(\"#800000\")` or `svg::Color(\"navy\")`.", svg, GOQ_SVG, |pixels| pixels);
svg_format!("A CSS colour in an SVG file with one path.", svg_path, GOQ_SVG_PATH, |_| 1);

// A colour as SVG writes it.
trait Named: Pixel {
    fn name(&self) -> &str;
}

// Draws an SVG file in the colours of a renderer. The library draws it in black and white, and in a
// number from 1 on for each colour of patterns.
fn filled<P: Named>(renderer: &Renderer<'_, P>, format: u32) -> Result<String, RenderError> {
    let own = std::array::from_fn(|at| renderer.own[at].map_or(sys::GOQ_SAME, |_| at as u32 + 1));
    let bytes = renderer.drawn(format, sys::GOQ_DRAWING.dark, sys::GOQ_DRAWING.light, own)?;
    let text = String::from_utf8(bytes).expect("the library writes UTF-8");
    let escaped = |color: &str| color.replace('&', "&amp;").replace('"', "&quot;").replace('<', "&lt;");
    let mut pieces = text.split("fill=\"#");
    let mut colored = String::from(pieces.next().unwrap_or_default());
    for (digits, rest) in pieces.filter_map(|it| it.split_once('"')) {
        let color = match digits {
            "000" => &renderer.dark,
            "fff" => &renderer.light,
            _ => {
                let number = usize::from_str_radix(digits, 16).expect("the library writes a number");
                renderer.own[number - 1].as_ref().expect("a colour of that number")
            }
        };
        colored += &format!("fill=\"{}\"{rest}", escaped(color.name()));
    }
    Ok(colored)
}

/// Encapsulated PostScript.
pub mod eps {
    /// A colour in an Encapsulated PostScript file.
    #[derive(Clone, Copy, Debug, PartialEq, Eq)]
    pub struct Color {
        /// Red, 0 to 255.
        pub red: u8,
        /// Green, 0 to 255.
        pub green: u8,
        /// Blue, 0 to 255.
        pub blue: u8,
    }
}

pixel! { eps::Color: String, 8,
    |is_dark| eps::Color { red: grey(is_dark), green: grey(is_dark), blue: grey(is_dark) },
    |renderer| {
        let bytes = renderer.colored(sys::GOQ_EPS, |it| word([0, it.red, it.green, it.blue]))?;
        Ok(String::from_utf8(bytes).expect("the library writes UTF-8"))
    }
}

/// PNG files.
pub mod png {
    /// A colour in a PNG file: red, green, blue and opacity, each from 0 to 255.
    #[derive(Clone, Copy, Debug, PartialEq, Eq)]
    pub struct Color(pub [u8; 4]);
}

pixel! { png::Color: Vec<u8>, 8,
    |is_dark| png::Color([grey(is_dark), grey(is_dark), grey(is_dark), 255]),
    |renderer| {
        renderer.colored(sys::GOQ_PNG, |png::Color([red, green, blue, opacity])| word([255 - opacity, red, green, blue]))
    }
}

impl<P: HasPatterns> Renderer<'_, P> {
    /// Sets the colour of the dark or the light modules of a pattern, or of the data.
    ///
    /// ```
    /// use goqlanis::render::{svg_path, Pattern};
    /// use goqlanis::{Color, QrCode};
    ///
    /// let code = QrCode::new(b"01234567").unwrap();
    /// let svg = code.render().pattern_color(Pattern::Finder, Color::Dark, svg_path::Color("navy")).build();
    /// assert!(svg.contains("<path fill=\"navy\""));
    /// ```
    pub fn pattern_color(&mut self, pattern: Pattern, tone: Color, color: P) -> &mut Self {
        self.own[2 * pattern as usize + tone.select(0, 1)] = Some(color);
        self
    }
}

impl Renderer<'_, png::Color> {
    /// Sets the dots per inch that the file states; 0 for none.
    pub fn dots_per_inch(&mut self, dpi: u16) -> &mut Self {
        self.dpi = u32::from(dpi);
        self
    }
}

/// Half blocks.
pub mod unicode {
    /// Half blocks, two modules per character: whether a module is a block or a space.
    #[derive(Clone, Copy, Debug, PartialEq, Eq)]
    pub enum Dense1x2 {
        /// A block.
        Dark,
        /// A space.
        Light,
    }
}

use unicode::Dense1x2::{Dark, Light};

pixel! { unicode::Dense1x2: String, 1,
    |is_dark| if is_dark { Dark } else { Light },
    |renderer| {
        match (renderer.dark, renderer.light) {
            (Dark, Light) => renderer.text(sys::GOQ_HALF_BLOCKS),
            (Light, Dark) => renderer.text(sys::GOQ_LIGHT_HALF_BLOCKS),
            // The same for all modules, as if all were dark or all light.
            (one, _) => {
                let modules = vec![0; renderer.modules.len()];
                let plain = Renderer { modules: &modules, ..*renderer };
                plain.text(if one == Dark { sys::GOQ_LIGHT_HALF_BLOCKS } else { sys::GOQ_HALF_BLOCKS })
            }
        }
    }
}

pixel! {
    /// One character per pixel, with a newline between rows.
    char: String, 1,
    |is_dark| if is_dark { '\u{2588}' } else { ' ' },
    |renderer| {
        renderer.check_side(sys::GOQ_ASCII)?;
        let pixels = Renderer { across: 1, down: 1, ..*renderer }.plain(sys::GOQ_GREY)?;
        let wide = |grey: &u8| vec![if *grey == 0 { renderer.dark } else { renderer.light }; renderer.across as usize];
        let line = |row: &[u8]| row.iter().flat_map(wide).collect::<String>();
        let lines = pixels.chunks(renderer.side() as usize).map(line);
        let lines: Vec<String> = lines.flat_map(|line| vec![line; renderer.down as usize]).collect();
        Ok(lines.join("\n"))
    }
}

impl Renderer<'_, char> {
    /// Sets the characters per module, across and down, each 1 to 65,535. Other numbers are
    /// clamped.
    pub fn module_dimensions(&mut self, width: u32, height: u32) -> &mut Self {
        self.across = width.clamp(1, 65_535);
        self.down = height.clamp(1, 65_535);
        self
    }
}
