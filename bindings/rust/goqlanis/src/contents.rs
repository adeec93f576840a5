//! Writes the payloads of QR codes: Wi-Fi networks, contacts, payments, links and events.
//!
//! Each text can be read back as exactly its fields. Account numbers, references, telephone numbers
//! and secrets may have spaces and lowercase letters.
//!
//! ```
//! use goqlanis::contents::{Cause, ContentError, Payment, Security, Wifi};
//! use goqlanis::{EcLevel, QrCode};
//!
//! let network = Wifi { security: Security::Wpa, ssid: "mynetwork", password: "mypass", hidden: false };
//! let text = network.text()?;
//! assert_eq!(text, "WIFI:T:WPA;S:mynetwork;P:mypass;;");
//! assert_eq!(QrCode::of_text(&text, EcLevel::M).unwrap().width(), 29);
//!
//! let wrong = Payment { name: "Red Cross of Belgium", iban: "BE72000000001617", cents: 100, ..Payment::default() };
//! assert_eq!(wrong.text(), Err(ContentError::Refused("iban", Cause::CheckDigits)));
//! # Ok::<(), ContentError>(())
//! ```
//!
//! ```
//! use goqlanis::contents::{Cause, ContentError, Upi};
//!
//! let upi = Upi { payee: "nadeem@npci", name: "nadeem chinna", cents: Some(1000), note: "Pay to mystar store", reference: "4894398cndhcd23", category: "0000" };
//! assert_eq!(upi.text()?, "upi://pay?pa=nadeem@npci&pn=nadeem%20chinna&mc=0000&tr=4894398cndhcd23&tn=Pay%20to%20mystar%20store&am=10.00&cu=INR");
//! assert_eq!(Upi { payee: "nadeem", ..upi }.text(), Err(ContentError::Refused("payee", Cause::Character)));
//! # Ok::<(), ContentError>(())
//! ```
//!
//! ```
//! use goqlanis::contents::{Cause, ContentError, Pix};
//!
//! let pix = Pix { payee: "123e4567-e12b-12d1-a456-426655440000", name: "Fulano de Tal", city: "BRASILIA", ..Pix::default() };
//! assert_eq!(pix.text()?, "00020126580014br.gov.bcb.pix0136123e4567-e12b-12d1-a456-4266554400005204000053039865802BR5913Fulano de Tal6008BRASILIA62070503***63041D3D");
//! assert_eq!(Pix { city: "São Paulo", ..pix }.text(), Err(ContentError::Refused("city", Cause::Character)));
//! # Ok::<(), ContentError>(())
//! ```
//!
//! ```
//! use goqlanis::contents::{Cause, ContentError, PromptPay};
//!
//! let phone = PromptPay { payee: "0000000000", cents: Some(422) };
//! assert_eq!(phone.text()?, "00020101021229370016A000000677010111011300660000000005802TH530376454044.226304E469");
//! assert_eq!(PromptPay { cents: Some(0), ..phone }.text(), Err(ContentError::Refused("cents", Cause::Range)));
//! # Ok::<(), ContentError>(())
//! ```
use goqlanis_sys as sys;
use std::fmt;

// The causes, with the answers of the library.
macro_rules! causes {
    ($(#[$about:meta])* $name:ident: $($(#[$told:meta])* $cause:ident = $answer:ident,)+) => {
        $(#[$about])*
        #[derive(Clone, Copy, Debug, PartialEq, Eq)]
        pub enum $name {
            $($(#[$told])* $cause,)+
        }

        const CAUSES: &[(u32, $name)] = &[$((sys::$answer, $name::$cause)),+];
    };
}

causes! {
    /// Why a format cannot express a field.
    Cause:
    /// The field may not be empty.
    Empty = GOQ_FIELD_EMPTY,
    /// The field, or the whole text, is longer than the format allows.
    TooLong = GOQ_FIELD_TOO_LONG,
    /// The field is shorter than the format allows.
    TooShort = GOQ_FIELD_TOO_SHORT,
    /// The field has a line break or another control character.
    ControlCharacter = GOQ_FIELD_CONTROL,
    /// The field has a character that the format does not allow there.
    Character = GOQ_FIELD_CHARACTER,
    /// The check digits do not match.
    CheckDigits = GOQ_FIELD_CHECK_DIGITS,
    /// The number is outside the format's range.
    Range = GOQ_FIELD_RANGE,
    /// The field cannot be given together with the others.
    Unused = GOQ_FIELD_UNUSED,
    /// The number has more digits after its point than the format allows.
    Decimals = GOQ_FIELD_DECIMALS,
    /// The field is not one of the words that it may be.
    Word = GOQ_FIELD_WORD,
    /// The application identifier of an element is not in the table.
    UnknownIdentifier = GOQ_NO_SUCH_IDENTIFIER,
    /// The value of an element has too few or too many characters.
    Length = GOQ_ELEMENT_LENGTH,
}

impl fmt::Display for Cause {
    fn fmt(&self, out: &mut fmt::Formatter<'_>) -> fmt::Result {
        let found = CAUSES.iter().find(|row| row.1 == *self);
        out.write_str(found.map_or("", |row| sys::goq_strerror(row.0)))
    }
}

/// Why a payload has no text.
#[derive(Clone, Copy, Debug, PartialEq, Eq)]
pub enum ContentError {
    /// The format cannot express the field with this name, for this cause. `text` is the whole
    /// text, and a name such as `debtor.city` is a field of a `Party`.
    Refused(&'static str, Cause),
    /// The GS1 element at this place, counted from 0, is wrong, for this cause.
    Element(usize, Cause),
    /// No symbol holds a text of this length.
    DataTooLong,
    /// Memory ran out.
    OutOfMemory,
}

says! { ContentError:
    ContentError::Refused(field, cause) => "{field}: {cause}";
    ContentError::Element(place, cause) => "element {place}: {cause}";
    ContentError::DataTooLong => "no code holds a text of this length";
    ContentError::OutOfMemory => "out of memory";
}

/// The text of a payload, or why it has none.
pub type ContentResult = Result<String, ContentError>;

// A field: its name and its text.
type Field<'a> = (&'static str, &'a str);

// The fields of a payload in the library's order, with their texts.
macro_rules! given {
    ($it:expr; $($field:ident $(.$part:ident)?),+) => {
        &[$((concat!(stringify!($field) $(, ".", stringify!($part))?), &*$it.$field$(.$part)?.said())),+]
    };
}

// Returns the text of a kind of payload; its fields are in the library's order.
fn text_of(kind: u32, fields: &[Field<'_>]) -> ContentResult {
    let given: Vec<sys::goq_field> = fields.iter().map(|(_, text)| sys::goq_field { bytes: text.as_ptr(), length: text.len() }).collect();
    let mut out = vec![0; sys::GOQ_BYTES_MAX];
    let (mut count, mut place) = (0, 0);
    // SAFETY: each field points to a text that outlives the call, and the lengths are those of the
    // buffers.
    let answer = unsafe { sys::goq_content(kind, given.as_ptr(), given.len(), out.as_mut_ptr(), out.len(), &mut count, &mut place) };
    match answer {
        sys::GOQ_OK => {
            out.truncate(count);
            Ok(String::from_utf8(out).expect("the library writes UTF-8"))
        }
        _ => Err(refused(answer, |cause| ContentError::Refused(fields.get(place).map_or("text", |field| field.0), cause))),
    }
}

// Returns the error that an answer other than `GOQ_OK` stands for; `of_field` takes a cause.
fn refused(answer: u32, of_field: impl FnOnce(Cause) -> ContentError) -> ContentError {
    match CAUSES.iter().find(|row| row.0 == answer) {
        Some(row) => of_field(row.1),
        None if answer == sys::GOQ_SMALL_BUFFER => ContentError::DataTooLong,
        None => ContentError::OutOfMemory,
    }
}

/// Returns the GS1 element string of application identifiers, without parentheses, and their
/// values.
///
/// These bytes follow FNC1 in the first position; `QrCode::of_gs1` makes the symbol.
///
/// ```
/// use goqlanis::contents::{gs1, Cause, ContentError};
///
/// let bytes = gs1(&[("01", "03453120000011"), ("10", "ABCD1234"), ("21", "10")])?;
/// assert_eq!(bytes, b"010345312000001110ABCD1234\x1d2110");
/// assert_eq!(gs1(&[("10", "ABCD1234"), ("01", "03453120000012")]), Err(ContentError::Element(1, Cause::CheckDigits)));
/// # Ok::<(), ContentError>(())
/// ```
pub fn gs1(elements: &[(&str, &str)]) -> Result<Vec<u8>, ContentError> {
    let given: Vec<sys::goq_element> = elements.iter().map(element).collect();
    let mut out = vec![0; sys::GOQ_BYTES_MAX];
    let (mut count, mut place) = (0, 0);
    // SAFETY: each element points to texts that outlive the call, and the lengths are those of the
    // buffers.
    let answer = unsafe { sys::goq_gs1(given.as_ptr(), given.len(), out.as_mut_ptr(), out.len(), &mut count, &mut place) };
    if answer != sys::GOQ_OK {
        return Err(element_error(answer, place));
    }
    out.truncate(count);
    Ok(out)
}

// Returns an element as the library takes it.
pub(crate) fn element((identifier, value): &(&str, &str)) -> sys::goq_element {
    sys::goq_element {
        identifier: identifier.as_ptr(),
        identifier_length: identifier.len(),
        value: value.as_ptr(),
        value_length: value.len(),
    }
}

// Returns the error that an answer stands for, of the element at a place.
pub(crate) fn element_error(answer: u32, place: usize) -> ContentError {
    refused(answer, |cause| ContentError::Element(place, cause))
}

// Enums, with the word that the library takes for each variant.
macro_rules! words {
    ($($(#[$about:meta])* $name:ident { $($(#[$told:meta])* $variant:ident = $word:literal,)+ })+) => {$(
        $(#[$about])*
        #[derive(Clone, Copy, Debug, Default, PartialEq, Eq)]
        pub enum $name {
            $($(#[$told])* $variant,)+
        }

        impl Said for $name {
            fn said(&self) -> String {
                match self {
                    $($name::$variant => $word,)+
                }
                .to_string()
            }
        }
    )+};
}

words! {
    /// How a network is secured.
    Security {
        /// No password.
        Open = "open",
        /// WEP.
        Wep = "WEP",
        /// WPA, WPA2, or both with WPA3.
        #[default]
        Wpa = "WPA",
        /// Only WPA3.
        Wpa3 = "WPA3",
    }

    /// The currency of a bill.
    Currency {
        /// Swiss francs, CHF.
        #[default]
        Franc = "CHF",
        /// Euros, EUR.
        Euro = "EUR",
    }

    /// The hash function of one-time passwords.
    Algorithm {
        /// SHA-1, the usual function.
        #[default]
        Sha1 = "SHA1",
        /// SHA-256.
        Sha256 = "SHA256",
        /// SHA-512.
        Sha512 = "SHA512",
    }

    /// How many digits a one-time password has.
    Digits {
        /// Six digits.
        #[default]
        Six = "6",
        /// Eight digits.
        Eight = "8",
    }
}

// The text of a field of a payload, as the library takes it.
trait Said {
    fn said(&self) -> String;
}

impl Said for &str {
    fn said(&self) -> String {
        self.to_string()
    }
}

impl Said for bool {
    fn said(&self) -> String {
        if *self { "true" } else { "" }.to_string()
    }
}

// An amount in hundredths, written with a point before them.
impl Said for u64 {
    fn said(&self) -> String {
        format!("{}.{:02}", self / 100, self % 100)
    }
}

impl<T: Said> Said for Option<T> {
    fn said(&self) -> String {
        self.as_ref().map_or_else(String::new, T::said)
    }
}

// Payloads, each with the fields of the library in its order, and the method that returns its text.
macro_rules! payloads {
    ($(
        $(#[$about:meta])*
        $name:ident.$call:ident of $kind:ident { $($(#[$told:meta])* $field:ident: $type:ty,)+ }
    )+) => {$(
        $(#[$about])*
        #[derive(Clone, Copy, Debug, Default, PartialEq, Eq)]
        pub struct $name<'a> {
            $($(#[$told])* pub $field: $type,)+
        }

        impl $name<'_> {
            /// Returns the text, to be encoded by `QrCode::of_text`.
            pub fn $call(&self) -> ContentResult {
                text_of(sys::$kind, given!(self; $($field),+))
            }
        }
    )+};
}

// The payloads whose fields are texts, amounts and words, as bindings/same writes them.
include!("payloads.in");

/// A name with its address.
#[derive(Clone, Copy, Debug, Default, PartialEq, Eq)]
pub struct Party<'a> {
    /// The name, up to 70 characters.
    pub name: &'a str,
    /// The street.
    pub street: &'a str,
    /// The house number.
    pub number: &'a str,
    /// The postal code.
    pub code: &'a str,
    /// The city.
    pub city: &'a str,
    /// The country: two letters, e.g. `CH`.
    pub country: &'a str,
}

/// A Swiss QR bill, for a symbol of level M and at most version 25, without the Swiss cross.
#[derive(Clone, Copy, Debug, Default, PartialEq, Eq)]
pub struct Bill<'a> {
    /// The number of an account in Switzerland or Liechtenstein.
    pub iban: &'a str,
    /// The payee.
    pub creditor: Party<'a>,
    /// The amount in hundredths, or `None` to leave it open.
    pub cents: Option<u64>,
    /// The currency.
    pub currency: Currency,
    /// The payer; all fields are empty if nobody is named.
    pub debtor: Party<'a>,
    /// The reference: 27 digits for a QR-IBAN; `RF..` or empty for another account.
    pub reference: &'a str,
    /// A message to the payee, up to 140 characters.
    pub message: &'a str,
}

impl Bill<'_> {
    /// Returns the text, to be encoded by `QrCode::of_text`.
    pub fn text(&self) -> ContentResult {
        text_of(
            sys::GOQ_BILL,
            given!(self; iban, creditor.name, creditor.street, creditor.number, creditor.code, creditor.city,
                creditor.country, cents, currency, reference, message, debtor.name, debtor.street, debtor.number,
                debtor.code, debtor.city, debtor.country),
        )
    }
}

/// A place on the earth.
#[derive(Clone, Copy, Debug, Default, PartialEq, Eq)]
pub struct Place {
    /// Millionths of a degree north of the equator.
    pub latitude: i32,
    /// Millionths of a degree east of Greenwich.
    pub longitude: i32,
}

// Returns millionths of a degree as degrees with six decimal places.
fn degrees(millionths: i32) -> String {
    let (sign, digits) = (if millionths < 0 { "-" } else { "" }, millionths.unsigned_abs());
    format!("{sign}{}.{:06}", digits / 1_000_000, digits % 1_000_000)
}

impl Place {
    /// Returns the text, to be encoded by `QrCode::of_text`.
    pub fn text(&self) -> ContentResult {
        text_of(sys::GOQ_GEO, &[("latitude", &degrees(self.latitude)), ("longitude", &degrees(self.longitude))])
    }
}

/// A telephone number.
#[derive(Clone, Copy, Debug, Default, PartialEq, Eq)]
pub struct Phone<'a> {
    /// The number.
    pub number: &'a str,
}

impl Phone<'_> {
    /// Returns a link that calls the number.
    pub fn tel(&self) -> ContentResult {
        text_of(sys::GOQ_TEL, &[("number", self.number)])
    }

    /// Returns a link that writes a text message to the number.
    pub fn sms(&self) -> ContentResult {
        self.message("")
    }

    /// Returns a link that writes a text message with this body to the number. An empty body is
    /// left out.
    pub fn message(&self, body: &str) -> ContentResult {
        text_of(sys::GOQ_SMS, &[("number", self.number), ("body", body)])
    }
}

/// What makes one-time passwords change.
#[derive(Clone, Copy, Debug, PartialEq, Eq)]
pub enum Factor {
    /// The time: each is valid for this number of seconds.
    Time(u32),
    /// A counter, which begins at this number.
    Counter(u64),
}

impl Default for Factor {
    fn default() -> Self {
        Factor::Time(30)
    }
}

/// One-time passwords of an account, for authenticator apps.
#[derive(Clone, Copy, Debug, Default, PartialEq, Eq)]
pub struct OneTime<'a> {
    /// What makes the passwords change.
    pub factor: Factor,
    /// The provider of the account.
    pub issuer: &'a str,
    /// The name of the account.
    pub account: &'a str,
    /// The secret in base 32, without `=` at the end.
    pub secret: &'a str,
    /// The hash function.
    pub algorithm: Algorithm,
    /// How long a password is.
    pub digits: Digits,
}

impl OneTime<'_> {
    /// Returns the text, to be encoded by `QrCode::of_text`.
    pub fn text(&self) -> ContentResult {
        let (period, counter) = match self.factor {
            Factor::Time(seconds) => (seconds.to_string(), String::new()),
            Factor::Counter(count) => (String::new(), count.to_string()),
        };
        let (algorithm, digits) = (self.algorithm.said(), self.digits.said());
        text_of(
            sys::GOQ_OTP,
            &[("account", self.account), ("secret", self.secret), ("issuer", self.issuer),
                ("algorithm", &algorithm), ("digits", &digits), ("period", &period), ("counter", &counter)],
        )
    }
}

/// A date.
#[derive(Clone, Copy, Debug, PartialEq, Eq)]
pub struct Day {
    /// The year.
    pub year: u16,
    /// The month, 1 to 12.
    pub month: u8,
    /// The day of the month.
    pub day: u8,
}

/// A date and time of day, in UTC.
#[derive(Clone, Copy, Debug, PartialEq, Eq)]
pub struct Moment {
    /// The date.
    pub day: Day,
    /// The hour.
    pub hour: u8,
    /// The minute.
    pub minute: u8,
    /// The second.
    pub second: u8,
}

impl Said for Day {
    fn said(&self) -> String {
        format!("{:04}-{:02}-{:02}", self.year, self.month, self.day)
    }
}

impl Said for Moment {
    fn said(&self) -> String {
        format!("{}T{:02}:{:02}:{:02}Z", self.day.said(), self.hour, self.minute, self.second)
    }
}

/// When an event begins and ends.
#[derive(Clone, Copy, Debug, PartialEq, Eq)]
pub enum Span {
    /// Whole days: the first day, and the day after the last.
    Days(Day, Day),
    /// From one time to a later one.
    Times(Moment, Moment),
}

/// A calendar event. Empty fields are left out.
#[derive(Clone, Copy, Debug, PartialEq, Eq)]
pub struct Event<'a> {
    /// An identifier that no other event has, or empty.
    pub uid: &'a str,
    /// The time when this was written.
    pub stamp: Option<Moment>,
    /// When the event begins and ends.
    pub span: Span,
    /// What the event is.
    pub summary: &'a str,
    /// Where the event is.
    pub location: &'a str,
    /// More about the event.
    pub description: &'a str,
}

impl Event<'_> {
    /// Returns the text, to be encoded by `QrCode::of_text`.
    pub fn text(&self) -> ContentResult {
        let (begin, end) = match self.span {
            Span::Days(first, end) => (first.said(), end.said()),
            Span::Times(begin, end) => (begin.said(), end.said()),
        };
        text_of(
            sys::GOQ_EVENT,
            &[("begin", &begin), ("end", &end), ("summary", self.summary), ("location", self.location),
                ("description", self.description), ("uid", self.uid), ("stamp", &self.stamp.said())],
        )
    }
}
