/* QR and Micro QR codes: encode, draw, read, check. All calls of the library are proved correct.

   Buffers: every call works in buffers of the caller; there is nothing to free. A pointer points to
   as many items as the length after it says, and may be NULL if that length is 0. Buffers must not
   overlap. Data may be any bytes. Text is UTF-8, without a zero at its end. Outputs go to the start
   of their buffers, and how many bytes or items they are to `count` or to what the comment names.

   Answers: a call returns GOQ_OK after writing all its outputs, or else what is wrong. The comment
   of each call lists its errors in order ("Errors: .."), and the call returns the first one that
   applies. If none does, and the length of an output is less than it needs, that is
   GOQ_SMALL_BUFFER. Each call may return GOQ_OUT_OF_MEMORY, also instead of those that take memory
   to find out. After an error all outputs are unchanged, except `place`: calls that have it write
   there which field, element, square, part or block is wrong.

   Threads: the library has no variables of its own. Calls may run in any threads at once, each with
   its own buffers.

   Structs that begin with `size` may get more fields in later versions of the library. It reads no
   more than `size` bytes of them. Initialise them with GOQ_OPTIONS, GOQ_DRAWING and so on.

   Memory: the library allocates with rattle_alloc, rattle_realloc and rattle_dealloc. They call
   malloc, realloc and free, unless your program defines its own. */
#ifndef GOQLANIS_H
#define GOQLANIS_H

#include <stdbool.h>
#include <stddef.h>
#include <stdint.h>
#include <string.h>

#ifdef __cplusplus
extern "C" {
#endif

/* The version of this header. */
#define GOQ_VERSION_MAJOR 1
#define GOQ_VERSION_MINOR 0
#define GOQ_VERSION_PATCH 0
#define GOQ_VERSION (GOQ_VERSION_MAJOR * 10000 + GOQ_VERSION_MINOR * 100 + GOQ_VERSION_PATCH)

/* Returns the version of the library, in the form of GOQ_VERSION. The library has all that a header
   of the same or a lower version declares, if the major versions are the same. */
uint32_t goq_version(void);

/* The initial value of a struct that begins with `size`, for initialisers and assignments. Use it
   through GOQ_OPTIONS, GOQ_SEVERAL, GOQ_DRAWING, GOQ_SCAN, GOQ_CHECKS, GOQ_WISH and GOQ_WRONG. */
#ifdef __cplusplus
#define GOQ_INITIAL(type, ...) type{sizeof(type), __VA_ARGS__}
#else
#define GOQ_INITIAL(type, ...) ((type){sizeof(type), __VA_ARGS__})
#endif

/* What a call returns: GOQ_OK, or the error. goq_strerror returns its text. */
typedef uint32_t goq_answer;

#define GOQ_ANSWERS(X) \
    X(OK, 0, "success") \
    X(NO_SUCH_LEVEL, 1, "no such error correction level: use GOQ_L, GOQ_M, GOQ_Q or GOQ_H") \
    X(NO_SUCH_VERSION, 2, "no such version: use 1 to 40, or GOQ_MICRO(1) to GOQ_MICRO(4)") \
    X(LEVEL_NOT_IN_VERSION, 3, "the version has no such level: use level L or a Normal version") \
    X(TOO_LONG, 4, "the data is longer than 1,048,576 bytes; no code holds more than 7,089") \
    X(NO_MODE, 5, "the Micro version lacks a mode that the data needs: use a Normal version") \
    X(NO_ROOM, 6, "the data does not fit: use a lower level or a larger version, or split it") \
    X(SMALL_BUFFER, 7, "an output buffer is too small for the result; nothing was written") \
    X(OUT_OF_MEMORY, 8, "out of memory") \
    X(NO_SUCH_FORMAT, 9, "no such picture format: use GOQ_HALF_BLOCKS to GOQ_ASCII") \
    X(NOT_SQUARE, 10, "the number of modules is not the square of their width") \
    X(NO_SUCH_SIZE, 11, "the picture would be empty or too large: change the scale or quiet zone") \
    X(NOT_TEXT, 12, "the text is not valid UTF-8") \
    X(NO_SUCH_KIND, 13, "no such kind of segment: use GOQ_NUMERIC to GOQ_FNC1_SECOND") \
    X(NOT_IN_MODE, 14, "a segment has bytes that its mode cannot encode: use byte mode") \
    X(NO_SUCH_NUMBER, 15, "a number is too large: ECI ends at 999,999, FNC1 at 255, counts at 16") \
    X(NO_SUCH_SIDE, 16, "no version has that many modules: give them without a quiet zone") \
    X(NO_FORMAT, 17, "the format information is too damaged, or the code is not upright") \
    X(DAMAGED, 18, "the code is damaged: a block has more errors than can be corrected") \
    X(NOT_SPELLED, 19, "the data bits are invalid, or have a header that this call does not take") \
    X(NO_SUCH_STRUCT, 20, "the field `size` is wrong: initialise with GOQ_OPTIONS or the like") \
    X(NO_SUCH_MANNER, 21, "no such manner: use one that the struct allows, as GOQ_AS_BYTES") \
    X(NO_SUCH_MASK, 22, "no such mask: Normal versions have 0 to 7, Micro versions 0 to 3") \
    X(NOT_IN_FORMAT, 23, "the format cannot have these colours, or dots per inch: use GOQ_PNG") \
    X(NOT_SHOWN, 24, "the data is not all UTF-8 text: goq_read may still give its bytes") \
    X(NOT_SEVERAL, 25, "the code is not one of several: it has no structured append header") \
    X(STRANGER, 26, "the code belongs to other data than the first one") \
    X(MISSING, 27, "one of the codes that the data was split over is missing") \
    X(TWICE, 28, "one of the codes that the data was split over was given twice") \
    X(PARITY, 29, "the codes do not belong together: the parity of their data is wrong") \
    X(NOT_READ, 30, "the square does not decode in any of the sixteen positions") \
    X(NO_SUCH_AREA, 31, "the area has no rectangle, or one that is empty or leaves the code") \
    X(NO_SUCH_CONTENT, 32, "no such kind of payload: use GOQ_WIFI to GOQ_PROMPTPAY") \
    X(NO_SUCH_FIELD, 33, "there are more fields than this kind of payload has") \
    X(FIELD_EMPTY, 34, "the field must not be empty") \
    X(FIELD_TOO_LONG, 35, "the field, or the whole text, is longer than the format allows") \
    X(FIELD_TOO_SHORT, 36, "the field is shorter than the format allows") \
    X(FIELD_CONTROL, 37, "the field has a line break or another control character: remove it") \
    X(FIELD_CHARACTER, 38, "the field has a character that the format does not allow there") \
    X(FIELD_CHECK_DIGITS, 39, "the check digits are wrong: look for a mistyped or swapped digit") \
    X(FIELD_RANGE, 40, "the number, date or time is outside the range that the format allows") \
    X(FIELD_UNUSED, 41, "the field cannot be combined with the other fields that are given") \
    X(NO_SUCH_IDENTIFIER, 42, "the GS1 application identifier of the element is unknown") \
    X(ELEMENT_LENGTH, 43, "the value of the GS1 element has too few or too many characters") \
    X(FIELD_DECIMALS, 44, "the number has more decimals than the format allows") \
    X(FIELD_WORD, 45, "the field is not one of the words that the format allows") \
    X(NO_AREA, 46, "no central area leaves that reserve: use a higher level or less reserve") \
    X(AREA_BLOCK, 47, "the area covers more codewords of a block than may be lost: shrink it") \
    X(AREA_FORMAT, 48, "the area covers too many modules of the format information: move it") \
    X(NOT_PICTURE, 49, "it is neither a PNG, PBM or PGM file nor half blocks: convert it to PNG") \
    X(BROKEN_PICTURE, 50, "the picture is cut off, damaged, interlaced or too big: save it again") \
    X(NO_SQUARE, 51, "no code was found in the picture: crop it to the code and an even margin") \
    X(LARGE_PICTURE, 52, "the picture is larger than 67,108,864 bytes: cut it into smaller ones") \
    X(NO_SUCH_SET, 53, "no such character set: use GOQ_UNMARKED to GOQ_UTF_8") \
    X(NOT_IN_SET, 54, "the character set has no such character: use another, as GOQ_UTF_8") \
    X(MANY_CODEWORDS, 55, "a block has fewer codewords than shall be wrong") \
    X(MANY_FORMAT_BITS, 56, "no more than 15 bits of the format information can be wrong") \
    X(MANY_VERSION_BITS, 57, "versions 7 to 40 alone have version information, of 18 bits") \
    X(MANY_PATTERN_MODULES, 58, "the patterns have fewer modules than shall be wrong")

enum {
#define GOQ_NAMED(name, number, text) GOQ_##name = number,
    GOQ_ANSWERS(GOQ_NAMED)
#undef GOQ_NAMED
};

/* Returns the text of an answer, in English: what is wrong, and mostly what would help. */
static inline const char *goq_strerror(goq_answer answer)
{
    switch (answer) {
#define GOQ_CASE(name, number, text) case number: return text;
        GOQ_ANSWERS(GOQ_CASE)
#undef GOQ_CASE
        default: return "no answer of this library";
    }
}

/* Error correction levels, from the lowest to the highest. */
enum { GOQ_L = 0, GOQ_M = 1, GOQ_Q = 2, GOQ_H = 3 };

/* Versions: 1 to 40 are Normal ones, GOQ_MICRO(1) to GOQ_MICRO(4) the Micro versions M1 to M4. */
#define GOQ_MICRO(number) (40 + (number))

/* Picture formats. */
enum {
    GOQ_HALF_BLOCKS = 0, /* UTF-8 text, two modules per character, blocks for dark modules */
    GOQ_LIGHT_HALF_BLOCKS = 1, /* the same with blocks for light modules, for dark terminals */
    GOQ_SVG = 2, /* SVG text */
    GOQ_PIC = 3, /* PIC text */
    GOQ_GREY = 4, /* rows of pixels, one byte each: 0 if dark, 255 if light */
    GOQ_PNG = 5, /* a PNG file, at most 65,535 pixels a side */
    GOQ_EPS = 6, /* Encapsulated PostScript text, one point per pixel */
    GOQ_PBM = 7, /* a PBM file */
    GOQ_SVG_PATH = 8, /* SVG text with a single path; shorter than GOQ_SVG */
    GOQ_PGM = 9, /* a PGM file, one byte per pixel */
    GOQ_PDF = 10, /* a PDF file of one page, one point per pixel */
    GOQ_ZPL = 11, /* ZPL II text for label printers, one dot per pixel */
    GOQ_TSPL = 12, /* TSPL commands for label printers, one dot per pixel */
    GOQ_ESC_POS = 13, /* ESC/POS raster for receipt printers, at most 65,535 dots a side */
    GOQ_XBM = 14, /* XBM text */
    GOQ_PPM = 15, /* a PPM file, three bytes per pixel */
    GOQ_ASCII = 16, /* text, two characters per pixel: ## if dark, two spaces if light */
    GOQ_FORMATS /* the number of formats */
};

/* Kinds of segments: a mode, or a header for what follows. */
enum {
    GOQ_NUMERIC = 0, /* digits */
    GOQ_ALPHANUMERIC = 1, /* digits, capitals, space and $%*+-./: */
    GOQ_BYTES = 2, /* any bytes */
    GOQ_KANJI = 3, /* two-byte characters of Shift JIS */
    GOQ_ECI = 4, /* header: `number`, below 1,000,000, names the character set of what follows */
    GOQ_FNC1_FIRST = 5, /* header: FNC1 in the first position, for GS1 */
    GOQ_FNC1_SECOND = 6 /* header: FNC1 in the second position; `number` is the application
                           indicator, below 256 */
};

/* A kind found only when reading: the header of one of several symbols (structured append). */
enum { GOQ_ONE_OF_SEVERAL = 7 };

/* Kinds of payload. The fields of each kind are UTF-8 texts, in the order of the names below, as
   people write them: account numbers, references, telephone numbers and secrets may have spaces and
   small letters, amounts a comma. A field that is not given is empty. */
enum {
    GOQ_WIFI = 0, /* a Wi-Fi network */
    GOQ_MECARD = 1, /* a contact, as MECARD */
    GOQ_VCARD = 2, /* a contact, as vCard 3.0 */
    GOQ_PAYMENT = 3, /* a SEPA credit transfer (EPC QR code); its symbol must have level M and at
                        most version 13 */
    GOQ_BILL = 4, /* a Swiss QR-bill; its symbol must have level M and at most version 25; print it
                     46 mm wide, without a quiet zone; the Swiss cross is not drawn */
    GOQ_MAIL = 5, /* an e-mail message */
    GOQ_GEO = 6, /* a location */
    GOQ_TEL = 7, /* a phone call */
    GOQ_SMS = 8, /* a text message */
    GOQ_OTP = 9, /* a one-time password key for authenticator apps */
    GOQ_EVENT = 10, /* a calendar event */
    GOQ_UPI = 11, /* a payment by UPI (India) */
    GOQ_PIX = 12, /* a payment by Pix (Brazil), static */
    GOQ_PROMPTPAY = 13 /* a payment by PromptPay (Thailand) */
};

enum {
    GOQ_WIFI_SSID, /* the name of the network, 1 to 32 bytes */
    GOQ_WIFI_PASSWORD, /* empty for an open network */
    GOQ_WIFI_SECURITY, /* "open", "WEP", "WPA" or "WPA3"; empty: WPA, or open if no password */
    GOQ_WIFI_HIDDEN, /* "true" if the network does not broadcast its name */
    GOQ_WIFI_FIELDS
};

enum {
    GOQ_MECARD_FAMILY, /* the family name, or the only name */
    GOQ_MECARD_GIVEN, GOQ_MECARD_PHONE, GOQ_MECARD_EMAIL, GOQ_MECARD_URL,
    GOQ_MECARD_BIRTHDAY, /* "1970-01-31" or "19700131" */
    GOQ_MECARD_NOTE, GOQ_MECARD_STREET, GOQ_MECARD_CITY, GOQ_MECARD_REGION,
    GOQ_MECARD_CODE, /* the postal code */
    GOQ_MECARD_COUNTRY, GOQ_MECARD_FIELDS
};

enum {
    GOQ_VCARD_NAME, /* the full name, as shown */
    GOQ_VCARD_FAMILY, GOQ_VCARD_GIVEN, GOQ_VCARD_ORGANISATION, GOQ_VCARD_PHONE, GOQ_VCARD_EMAIL,
    GOQ_VCARD_URL, GOQ_VCARD_STREET, GOQ_VCARD_CITY, GOQ_VCARD_REGION, GOQ_VCARD_CODE,
    GOQ_VCARD_COUNTRY, GOQ_VCARD_NOTE,
    GOQ_VCARD_TITLE, /* the title or function */
    GOQ_VCARD_BIRTHDAY, /* "1970-01-31" or "19700131" */
    GOQ_VCARD_MOBILE, /* more telephone numbers, next to GOQ_VCARD_PHONE */
    GOQ_VCARD_WORK_PHONE, GOQ_VCARD_HOME_PHONE, GOQ_VCARD_NICKNAME, GOQ_VCARD_FAX, GOQ_VCARD_FIELDS
};

enum {
    GOQ_PAYMENT_NAME, /* the payee, up to 70 characters */
    GOQ_PAYMENT_IBAN,
    GOQ_PAYMENT_AMOUNT, /* in euros, such as "12.30": 0.01 to 999999999.99 */
    GOQ_PAYMENT_BIC, /* with it the text has version 001, without it 002 */
    GOQ_PAYMENT_PURPOSE, /* up to four letters and digits */
    GOQ_PAYMENT_REFERENCE, /* a creditor reference (ISO 11649) */
    GOQ_PAYMENT_MESSAGE, /* instead of a reference, up to 140 characters */
    GOQ_PAYMENT_INFORMATION, /* a note to the payer, up to 70 characters */
    GOQ_PAYMENT_FIELDS
};

enum {
    GOQ_BILL_IBAN, /* of Switzerland or Liechtenstein */
    GOQ_BILL_NAME, /* the payee, up to 70 characters */
    GOQ_BILL_STREET, /* the street, without the house number */
    GOQ_BILL_NUMBER, /* the house number */
    GOQ_BILL_CODE, /* the postal code */
    GOQ_BILL_CITY,
    GOQ_BILL_COUNTRY, /* two letters, such as "CH" */
    GOQ_BILL_AMOUNT, /* such as "1949.75"; empty: the payer fills it in */
    GOQ_BILL_CURRENCY, /* "CHF" or "EUR"; empty: CHF */
    GOQ_BILL_REFERENCE, /* 27 digits for a QR-IBAN; for other IBANs RF.. or empty */
    GOQ_BILL_MESSAGE, /* up to 140 characters */
    GOQ_BILL_DEBTOR_NAME, /* the payer; this and the next five may all be empty */
    GOQ_BILL_DEBTOR_STREET, GOQ_BILL_DEBTOR_NUMBER, GOQ_BILL_DEBTOR_CODE, GOQ_BILL_DEBTOR_CITY,
    GOQ_BILL_DEBTOR_COUNTRY, GOQ_BILL_FIELDS
};

enum {
    GOQ_MAIL_ADDRESS, /* one address, or several with commas between */
    GOQ_MAIL_SUBJECT, GOQ_MAIL_BODY,
    GOQ_MAIL_CC, /* addresses that get a copy */
    GOQ_MAIL_BCC, /* addresses that get a copy, unseen by the others */
    GOQ_MAIL_FIELDS
};

/* Degrees north of the equator and east of Greenwich, such as "-33.8568", with at most six
   decimals. */
enum { GOQ_GEO_LATITUDE, GOQ_GEO_LONGITUDE, GOQ_GEO_FIELDS };

enum { GOQ_TEL_NUMBER, GOQ_TEL_FIELDS };
enum { GOQ_SMS_NUMBER, GOQ_SMS_BODY, GOQ_SMS_FIELDS };

enum {
    GOQ_OTP_ACCOUNT,
    GOQ_OTP_SECRET, /* in base 32 */
    GOQ_OTP_ISSUER,
    GOQ_OTP_ALGORITHM, /* "SHA1", "SHA256" or "SHA512"; empty: SHA1 */
    GOQ_OTP_DIGITS, /* "6" or "8"; empty: 6 */
    GOQ_OTP_PERIOD, /* how long a password is valid, in seconds; empty: 30 */
    GOQ_OTP_COUNTER, /* if given, passwords are counter-based (HOTP), from this value on */
    GOQ_OTP_FIELDS
};

/* Times have a zone, such as "2026-11-28T14:00+01:00", or are in UTC, such as "2026-11-28T13:00Z".
   Begin and end may both be days, such as "2026-11-28". */
enum {
    GOQ_EVENT_BEGIN,
    GOQ_EVENT_END, /* for whole days: the day after the last */
    GOQ_EVENT_SUMMARY, GOQ_EVENT_LOCATION, GOQ_EVENT_DESCRIPTION,
    GOQ_EVENT_UID, /* a unique identifier, or empty */
    GOQ_EVENT_STAMP, /* when the entry was written, or empty */
    GOQ_EVENT_FIELDS
};

/* The amounts of these and the next kinds are such as "12.30", 0.01 to 999999999.99; if empty, the
   payer enters one. */
enum {
    GOQ_UPI_PAYEE, /* an address such as "name@bank" */
    GOQ_UPI_NAME, /* the payee */
    GOQ_UPI_AMOUNT, /* in rupees */
    GOQ_UPI_NOTE,
    GOQ_UPI_REFERENCE, /* such as an order number */
    GOQ_UPI_CATEGORY, /* the merchant category code, four digits */
    GOQ_UPI_FIELDS
};

enum {
    GOQ_PIX_PAYEE, /* a key without spaces, up to 77 bytes of ASCII */
    GOQ_PIX_NAME, /* up to 25 bytes of ASCII */
    GOQ_PIX_CITY, /* up to 15 bytes of ASCII */
    GOQ_PIX_AMOUNT, /* in reais */
    GOQ_PIX_REFERENCE, /* txid, up to 25 letters and digits */
    GOQ_PIX_DESCRIPTION, /* together with the key up to 73 bytes of ASCII */
    GOQ_PIX_FIELDS
};

enum {
    GOQ_PROMPTPAY_PAYEE, /* a phone number (10 digits), national or tax ID (13) or e-wallet (15);
                            there may be spaces and hyphens between digits */
    GOQ_PROMPTPAY_AMOUNT, /* in baht */
    GOQ_PROMPTPAY_FIELDS
};

/* How data is encoded. */
enum {
    GOQ_AS_BYTES = 0, /* like goq_encode */
    GOQ_AS_TEXT = 1, /* like goq_encode_text: the data must be UTF-8 */
    GOQ_AS_MARKED_TEXT = 2 /* like goq_encode_marked_text: the same, in a Normal version */
};

/* Character sets for text, by their ECI designators. */
enum {
    GOQ_UNMARKED = 0, /* UTF-8 without a header */
    GOQ_ISO_8859_1 = 3, /* for Western Europe */
    GOQ_ISO_8859_2 = 4, /* for Central Europe */
    GOQ_ISO_8859_3 = 5, /* for Southern Europe */
    GOQ_ISO_8859_4 = 6, /* for Northern Europe */
    GOQ_ISO_8859_5 = 7, /* with Cyrillic letters */
    GOQ_ISO_8859_6 = 8, /* with Arabic letters */
    GOQ_ISO_8859_7 = 9, /* with Greek letters */
    GOQ_ISO_8859_8 = 10, /* with Hebrew letters */
    GOQ_ISO_8859_9 = 11, /* for Turkish */
    GOQ_ISO_8859_10 = 12, /* for Northern Europe */
    GOQ_ISO_8859_11 = 13, /* with Thai letters */
    GOQ_ISO_8859_13 = 15, /* for the Baltic */
    GOQ_ISO_8859_14 = 16, /* for Celtic languages */
    GOQ_ISO_8859_15 = 17, /* part 1 with the euro sign */
    GOQ_ISO_8859_16 = 18, /* for South-Eastern Europe */
    GOQ_SHIFT_JIS = 20, /* for Japanese, with Kanji segments */
    GOQ_WINDOWS_1250 = 21, /* of Windows, for Central Europe */
    GOQ_WINDOWS_1251 = 22, /* of Windows, with Cyrillic letters */
    GOQ_WINDOWS_1252 = 23, /* of Windows, for Western Europe */
    GOQ_WINDOWS_1256 = 24, /* of Windows, with Arabic letters */
    GOQ_UTF_8 = 26 /* UTF-8 after its header */
};

/* A mask, for the field `mask` of goq_options: 0 to 7, in Micro 0 to 3. goq_mask reads the number
   back. */
#define GOQ_MASK(number) (1 + (number))

/* Options for encoding. Initialise with GOQ_OPTIONS, then change what you need. */
typedef struct {
    uint32_t size; /* must be sizeof(goq_options) */
    uint32_t level; /* GOQ_L .. GOQ_H */
    uint32_t manner; /* GOQ_AS_BYTES .. GOQ_AS_MARKED_TEXT */
    uint32_t version; /* the version to use, or 0 for the smallest that holds the data */
    uint32_t min_version; /* if `version` is 0: the smallest version to try; Micro comes before
                               Normal, so GOQ_MICRO(1) tries all versions */
    uint32_t boost; /* if `version` is 0: 1 to raise the level as far as the data fits, else 0 */
    uint32_t mask; /* GOQ_MASK(number), which the version must have; or 0 for the lowest penalty */
} goq_options;

#define GOQ_OPTIONS GOQ_INITIAL(goq_options, GOQ_M, GOQ_AS_BYTES, 0, 1, 0, 0)

/* Options for goq_encode_several (structured append). If `count` is 0, the data is split over the
   fewest symbols that any of the versions allows, in the smallest version that allows so few; else
   over `count` symbols, in the smallest version that holds them. Initialise with GOQ_SEVERAL. */
typedef struct {
    uint32_t size; /* must be sizeof(goq_several) */
    uint32_t level; /* GOQ_L .. GOQ_H */
    uint32_t manner; /* GOQ_AS_BYTES or GOQ_AS_TEXT */
    uint32_t min_version; /* the smallest version to use, 1 to 40 */
    uint32_t max_version; /* the largest version to use, 1 to 40 */
    uint32_t count; /* how many symbols, 1 to GOQ_SEVERAL_MAX; or 0 for as few as possible */
} goq_several;

#define GOQ_SEVERAL GOQ_INITIAL(goq_several, GOQ_M, GOQ_AS_BYTES, 1, 40, 0)

/* The most symbols that data can be split over. */
enum { GOQ_SEVERAL_MAX = 16 };

/* How modules are drawn. Initialise with GOQ_DRAWING, then change what you need. A colour is
   0xRRGGBB plus its transparency: 0 if opaque, 0x80000000 if half transparent, GOQ_TRANSPARENT if
   fully transparent. SVG and PNG take any colours, EPS, PDF and PPM opaque ones, other formats only
   black on white. The colours of patterns and of data are GOQ_SAME, for the colour of all dark or
   light modules, or a colour of their own: any in PNG, which then has at most 8,192 pixels a side,
   and opaque ones in GOQ_SVG_PATH, EPS and PDF. */
typedef struct {
    uint32_t size; /* must be sizeof(goq_drawing) */
    uint32_t format; /* GOQ_HALF_BLOCKS .. GOQ_ASCII */
    uint32_t zone; /* the width of the quiet zone, in modules */
    uint32_t scale; /* pixels per module, across and down */
    uint32_t dark; /* the colour of dark modules; 0x000000 is black */
    uint32_t light; /* the colour of light modules and the quiet zone; 0xffffff is white */
    uint32_t dpi; /* dots per inch that a PNG file states, up to 65,535; in GOQ_SVG_PATH, EPS and
        PDF how many pixels make an inch, for exact lengths; 0 for none */
    uint32_t finder_dark; /* dark modules of the finder patterns */
    uint32_t finder_light; /* light modules in and around the finder patterns */
    uint32_t alignment_dark; /* dark modules of the alignment patterns */
    uint32_t alignment_light; /* light modules of the alignment patterns */
    uint32_t timing_dark; /* dark modules of the timing patterns */
    uint32_t timing_light; /* light modules of the timing patterns */
    uint32_t format_dark; /* dark modules of the format information */
    uint32_t format_light; /* light modules of the format information */
    uint32_t version_dark; /* dark modules of the version information */
    uint32_t version_light; /* light modules of the version information */
    uint32_t data_dark; /* dark modules of data and error correction */
    uint32_t data_light; /* light modules of data and error correction */
} goq_drawing;

#define GOQ_DRAWING GOQ_INITIAL(goq_drawing, GOQ_PNG, 4, 8, 0x000000, 0xffffff, 0, \
    GOQ_SAME, GOQ_SAME, GOQ_SAME, GOQ_SAME, GOQ_SAME, GOQ_SAME, \
    GOQ_SAME, GOQ_SAME, GOQ_SAME, GOQ_SAME, GOQ_SAME, GOQ_SAME)

#define GOQ_TRANSPARENT 0xff000000u

/* No colour of their own: these modules have the colour of all dark or light ones. */
#define GOQ_SAME 0xffffffffu

/* The most modules that a symbol has: a buffer of this size holds any symbol. */
enum { GOQ_MODULES_MAX = 177 * 177 };

/* The most bytes that a symbol decodes to: a buffer of this size holds any data that is read. */
enum { GOQ_BYTES_MAX = 7089 };

/* The most bytes that calls look at unless they check them. Longer data fits no symbols. Texts
   (GOQ_AS_TEXT, GOQ_AS_MARKED_TEXT, goq_encode_charset, goq_text, goq_decode), fields of
   goq_content, GS1 elements, and segments other than GOQ_BYTES are read to their end. */
enum { GOQ_DATA_MAX = 1048576 };

/* What a symbol is, besides its modules. */
typedef struct {
    uint32_t version; /* 1 to 40, or GOQ_MICRO(1 to 4) */
    uint32_t level; /* GOQ_L .. GOQ_H */
    uint32_t width; /* how many modules a side has, without a quiet zone */
} goq_symbol;

/* A segment: bytes in a mode, or a header for what follows. A segment without bytes is left out,
   since an empty numeric segment is the terminator of Micro QR. */
typedef struct {
    uint32_t kind; /* GOQ_NUMERIC .. GOQ_FNC1_SECOND */
    uint32_t number; /* for GOQ_ECI and GOQ_FNC1_SECOND; ignored for other kinds */
    const void *bytes; /* the data; ignored for headers; may be NULL if `length` is 0 */
    size_t length; /* how many bytes */
} goq_segment;

/* A field of a payload: UTF-8 text, or empty. */
typedef struct {
    const void *bytes; /* the text; may be NULL if `length` is 0 */
    size_t length; /* how many bytes */
} goq_field;

/* Initialises a goq_field from a zero-terminated string. */
#define GOQ_TEXT(text) {(text), strlen(text)}

/* A GS1 element: its application identifier, without parentheses, and its value, with the check
   digit if it has one. */
typedef struct {
    const void *identifier; /* the digits of the application identifier, such as 01 */
    size_t identifier_length; /* how many bytes */
    const void *value; /* the value */
    size_t value_length; /* how many bytes */
} goq_element;

/* What a square decodes to, besides its bytes. */
typedef struct {
    uint32_t version; /* 1 to 40, or GOQ_MICRO(1 to 4) */
    uint32_t level; /* GOQ_L .. GOQ_H */
    uint32_t mask; /* 0 to 7, in Micro 0 to 3 */
    size_t wrong; /* how many codewords were wrong and have been corrected */
    size_t length; /* how many bytes the data has */
} goq_reading;

/* Positions of a symbol. If dark and light are swapped, GOQ_INVERTED is added. */
enum {
    GOQ_UPRIGHT = 0,
    GOQ_TURNED_LEFT = 1, /* rotated by 90 degrees, counterclockwise */
    GOQ_UPSIDE_DOWN = 2,
    GOQ_TURNED_RIGHT = 3, /* rotated by 90 degrees, clockwise */
    GOQ_MIRRORED = 4, /* left and right swapped */
    GOQ_FLIPPED = 5, /* top and bottom swapped */
    GOQ_TRANSPOSED = 6, /* columns and rows swapped: mirrored at the diagonal from the top left */
    GOQ_ANTITRANSPOSED = 7, /* mirrored at the other diagonal */
    GOQ_INVERTED = 8
};

/* Other names of two positions. */
#define GOQ_ROTATED_LEFT GOQ_TURNED_LEFT
#define GOQ_ROTATED_RIGHT GOQ_TURNED_RIGHT

/* What a square in any position decodes to, besides its bytes. */
typedef struct {
    goq_reading reading; /* version, level, mask, corrected codewords and length */
    uint32_t position; /* GOQ_UPRIGHT .. GOQ_ANTITRANSPOSED, plus GOQ_INVERTED if inverted */
} goq_any_reading;

/* A header or a segment of a code that was read. Fields that its kind does not have are 0. */
typedef struct {
    uint32_t kind; /* GOQ_NUMERIC .. GOQ_FNC1_SECOND, or GOQ_ONE_OF_SEVERAL */
    uint32_t number; /* for GOQ_ECI: the ECI designator; for GOQ_FNC1_SECOND: the application
                        indicator, two digits as their number, or a letter as its ASCII code plus
                        100; for GOQ_ONE_OF_SEVERAL: the parity of the whole data */
    uint32_t place; /* for GOQ_ONE_OF_SEVERAL: which of the symbols this is, counted from 0 */
    uint32_t symbols; /* for GOQ_ONE_OF_SEVERAL: how many symbols there are */
    size_t length; /* for a segment: how many bytes it encodes; after FNC1, two percent signs of a
                      GOQ_ALPHANUMERIC segment are only one byte of the data */
} goq_part;

/* The most parts that a code has. */
enum { GOQ_PARTS_MAX = 5912 };

/* A code in a picture, besides its parts and bytes. */
typedef struct {
    goq_reading reading; /* version, level, mask, corrected codewords and length of the data */
    uint32_t position; /* GOQ_UPRIGHT .. GOQ_ANTITRANSPOSED, plus GOQ_INVERTED if inverted */
    size_t parts; /* how many parts it has */
} goq_code;

/* How much goq_read_picture has written. Initialise with GOQ_SCAN. */
typedef struct {
    uint32_t size; /* must be sizeof(goq_scan) */
    size_t codes; /* how many codes */
    size_t parts; /* how many parts, of all codes */
    size_t length; /* how many bytes, of all codes */
} goq_scan;

#define GOQ_SCAN GOQ_INITIAL(goq_scan, 0, 0, 0)

/* A square in a picture that looks like a code but does not decode. */
typedef struct {
    size_t width; /* how many modules a side has */
    size_t left; /* the pixel column of its upper left corner, counted from 0 */
    size_t top; /* the pixel row of its upper left corner */
    uint32_t why; /* GOQ_DAMAGED or GOQ_NOT_SPELLED */
} goq_missed_code;

/* How many modules of each kind of pattern are wrong. One in two patterns counts for both. */
typedef struct {
    size_t finder; /* of the finder patterns and their separators */
    size_t alignment; /* of the alignment patterns */
    size_t timing; /* of the timing patterns */
    size_t format; /* of the copies of the format information, and the module that is always dark */
    size_t version; /* of the copies of the version information */
    size_t remainder; /* of the remainder bits, after the last codeword */
} goq_wrong_modules;

/* Findings on the data bits of a code. All are 0 if the data bits are not segments and a
   terminator. */
typedef struct {
    uint32_t segments; /* 1 if the data bits are segments and a terminator */
    uint32_t compared; /* 1 if the next two are known: not after FNC1 or with headers between */
    size_t bits; /* how many bits the segments take */
    size_t fewest; /* the fewest for the same bytes, with Kanji mode only if a segment has it */
    size_t terminator; /* wrong bits of the terminator, and of the zeros up to a whole byte */
    size_t padding; /* wrong bits of the padding after these */
    size_t guessed; /* segments with bytes above 127 and no ECI: readers guess the character set */
    uint32_t are_utf8; /* 1 if all of these are UTF-8 */
} goq_data_bits;

/* The rank of the mask of a code among all masks of its version. */
typedef struct {
    size_t lower; /* how many masks have a lower penalty */
    size_t equal; /* how many masks with a lower number have the same penalty */
} goq_rank;

/* Where a code departs from the standard, besides the wrong codewords of each block. */
typedef struct {
    uint32_t version; /* 1 to 40, or GOQ_MICRO(1 to 4) */
    uint32_t level; /* GOQ_L .. GOQ_H */
    uint32_t mask; /* 0 to 7, in Micro 0 to 3 */
    uint32_t standard; /* 1 if nothing departs: the mask is the best by a reading of the standard */
    uint32_t grade; /* the grade of `unused` by ISO/IEC 15415: 'A' to 'D', or 'F' */
    size_t blocks; /* how many blocks the symbol has */
    size_t allowed; /* how many wrong codewords of each block the standard lets readers correct */
    size_t unused; /* the unused error correction of the worst block, in percent */
    goq_wrong_modules wrong; /* wrong modules of patterns */
    goq_data_bits data; /* findings on the data bits */
    goq_rank masks; /* the rank of the mask, with dark modules in steps of 5 % as in the standard */
    goq_rank masks_here; /* its rank without these steps, as goq_encode chooses masks */
} goq_checked;

/* How much goq_check has written. Initialise with GOQ_CHECKS. */
typedef struct {
    uint32_t size; /* must be sizeof(goq_checks) */
    size_t codes; /* how many codes */
    size_t blocks; /* how many blocks, of all codes */
} goq_checks;

#define GOQ_CHECKS GOQ_INITIAL(goq_checks, 0, 0)

/* A square of modules, in the form that goq_read takes. */
typedef struct {
    const uint8_t *modules; /* row by row, dark if not zero, without a quiet zone */
    size_t length; /* how many modules */
} goq_square;

/* A rectangle of modules of a symbol. An area is one or more rectangles, up to GOQ_MODULES_MAX. */
typedef struct {
    size_t left; /* its left column, counted from 0 */
    size_t top; /* its top row, counted from 0 */
    size_t width; /* how many columns it has */
    size_t height; /* how many rows it has */
} goq_rectangle;

/* What an area takes of a symbol, and how much error correction it leaves. */
typedef struct {
    size_t blocks; /* how many blocks the symbol has */
    size_t allowed; /* how many codewords of each block may be lost: what can be corrected */
    size_t worst; /* a block of which the area touches the most codewords, counted from 0 */
    size_t first; /* how many modules of the first copy of the format information; 3 may be lost */
    size_t last; /* how many modules of the last copy; in Micro, which has one copy, the same */
    size_t least; /* how many more codewords of each block may be lost elsewhere, or 0 */
    uint32_t may_show_anything; /* 1 if the symbol decodes whatever the area shows, else 0 */
} goq_area_use;

/* What goq_largest_area looks for. Initialise with GOQ_WISH, then change what you need. */
typedef struct {
    uint32_t size; /* must be sizeof(goq_wish) */
    uint32_t across; /* the width of the rectangle, in proportion to `down` */
    uint32_t down; /* its height, in proportion to `across` */
    uint32_t reserve; /* how many more codewords of each block may be lost elsewhere; or GOQ_HALF */
    uint32_t keep_alignment; /* 1 to avoid alignment patterns too; all others are avoided anyway */
} goq_wish;

#define GOQ_WISH GOQ_INITIAL(goq_wish, 1, 1, GOQ_HALF, 0)

/* A reserve of half of the codewords that may be lost. */
#define GOQ_HALF 0xffffffffu

/* How much of a symbol shall be wrong. Initialise with GOQ_WRONG, then change what you need. */
typedef struct {
    uint32_t size; /* must be sizeof(goq_wrong) */
    size_t codewords; /* how many codewords of each block */
    size_t format_bits; /* how many bits of each copy of the format information, up to 15 */
    size_t version_bits; /* how many bits of each copy of the version information, up to 18 */
    size_t pattern_modules; /* how many modules of finder, timing and alignment patterns */
    uint64_t seed; /* decides which ones */
} goq_wrong;

#define GOQ_WRONG GOQ_INITIAL(goq_wrong, 0, 0, 0, 0, 0)

/* How much of a symbol may be wrong so that it still decodes to its data, whatever is. */
typedef struct {
    size_t codewords; /* how many codewords of each block */
    uint32_t is_promised; /* 1 if no more is wrong, with up to 3 format bits, else 0 */
} goq_promised;

/* The most blocks that a symbol has. */
enum { GOQ_BLOCKS_MAX = 81 };

/* -- Encoding --

   A symbol goes to `modules`, row by row from the top left corner without a quiet zone, one byte a
   module: 1 if dark, 0 if light. GOQ_MODULES_MAX bytes hold any symbol; bytes after its modules are
   unchanged. Version, level and width go to `symbol`. */

/* Encodes `data` with options: as bytes or as text, in a version or the smallest that holds it.
   Errors: GOQ_NO_SUCH_STRUCT, GOQ_NO_SUCH_LEVEL, GOQ_NO_SUCH_VERSION, GOQ_NO_SUCH_MANNER,
   GOQ_NOT_TEXT; if `options` names a version, GOQ_NO_MODE and GOQ_LEVEL_NOT_IN_VERSION; GOQ_NO_ROOM
   (also for more than 1,048,576 bytes), GOQ_NO_SUCH_MASK. */
goq_answer goq_encode_with(const void *data, size_t data_length, const goq_options *options,
    uint8_t *modules, size_t modules_length, goq_symbol *symbol);

/* Encodes UTF-8 text in one of some character sets, in the smallest version that any of them
   allows, and there in the fewest bits. `designators` are those of the sets; without them UTF-8,
   ISO 8859 and Shift JIS are tried. `options` are those of goq_encode_with; `manner` has no effect.
   The set goes to `designator`. Readers that follow ECI, and assume UTF-8 without it, show exactly
   the text. Errors: GOQ_NO_SUCH_STRUCT, GOQ_NO_SUCH_LEVEL, GOQ_NO_SUCH_VERSION, GOQ_NO_SUCH_MANNER;
   GOQ_NO_SUCH_SET with the index of the designator in `place`; GOQ_NOT_TEXT; GOQ_NO_ROOM for more
   than 1,048,576 bytes; if each set lacks a character, GOQ_NOT_IN_SET with the place of the first
   one that the first set lacks, counted in characters from 0; if `options` names a version,
   GOQ_LEVEL_NOT_IN_VERSION and GOQ_NO_MODE (Micro has no ECI); GOQ_NO_ROOM, GOQ_NO_SUCH_MASK. */
goq_answer goq_encode_charset(const void *text, size_t text_length, const uint32_t *designators,
    size_t designators_length, const goq_options *options, uint8_t *modules, size_t modules_length,
    goq_symbol *symbol, uint32_t *designator, size_t *place);

/* Splits `data` over several symbols (structured append), one after the other in `modules`, each
   with symbol->width * symbol->width modules; `symbol` describes each of them, and their number
   goes to `count`. A single symbol has no structured append header. Errors: GOQ_NO_SUCH_STRUCT,
   GOQ_NO_SUCH_LEVEL, GOQ_NO_SUCH_VERSION (also for Micro, or if the smallest version is above the
   largest), GOQ_NO_SUCH_MANNER, GOQ_NO_SUCH_NUMBER (a count above GOQ_SEVERAL_MAX), GOQ_NOT_TEXT,
   GOQ_NO_ROOM. */
goq_answer goq_encode_several(const void *data, size_t data_length, const goq_several *options,
    uint8_t *modules, size_t modules_length, goq_symbol *symbol, size_t *count);

/* Encodes `segments`, one after the other, in a version and level. Errors: GOQ_NO_SUCH_LEVEL,
   GOQ_NO_SUCH_VERSION, GOQ_LEVEL_NOT_IN_VERSION; for the first segment with an error
   GOQ_NO_SUCH_KIND, GOQ_NOT_IN_MODE, GOQ_NO_MODE, GOQ_NO_SUCH_NUMBER (which GOQ_FNC1_SECOND checks
   before GOQ_NO_MODE), GOQ_NO_ROOM; then GOQ_NO_ROOM if they do not fit together. */
goq_answer goq_encode_segments(const goq_segment *segments, size_t segments_length,
    uint32_t version, uint32_t level, uint8_t *modules, size_t modules_length, goq_symbol *symbol);

/* Finds the smallest Normal version that holds `segments` at a level, and writes it to `version`.
   Errors: GOQ_NO_SUCH_LEVEL; for the first segment with an error GOQ_NO_SUCH_KIND, GOQ_NOT_IN_MODE,
   GOQ_NO_SUCH_NUMBER, unless no version has room for those before it; GOQ_NO_ROOM. */
goq_answer goq_smallest_version_of_segments(const goq_segment *segments, size_t segments_length,
    uint32_t level, uint32_t *version);

/* Returns how many modules a side has in a version, without a quiet zone; 0 if there is none. */
uint32_t goq_width(uint32_t version);

/* Returns whether the module in column `x` and row `y` of a version, from 0, belongs to a function
   pattern or to format or version information; false if there is no such version or module. */
bool goq_is_functional(uint32_t version, uint32_t x, uint32_t y);

/* -- Drawing -- */

/* Draws `modules` in the format, colours and dots per inch of `drawing`. There are width * width
   modules, row by row, dark if not zero. goq_draw_with_length tells how long `out` must be;
   GOQ_MODULES_MAX * 80 + 400 bytes are enough for any SVG, PIC or EPS in black on white. The scale
   is 1 to 65,535; a side has at most 177 modules, with the quiet zone 8,191. PNG has 1 to 65,535
   pixels a side, ESC/POS at most 65,535, and the text formats for terminals and pages (half blocks
   and GOQ_ASCII) at most 4,096. Errors: GOQ_NO_SUCH_STRUCT, GOQ_NO_SUCH_FORMAT, GOQ_NOT_SQUARE,
   GOQ_NO_SUCH_SIZE, GOQ_NOT_IN_FORMAT; GOQ_NO_SUCH_SIDE, if patterns or data have colours of their
   own and no version has so many modules a side. */
goq_answer goq_draw_with(const uint8_t *modules, size_t modules_length, uint32_t width,
    const goq_drawing *drawing, void *out, size_t out_length, size_t *count);

/* Writes the length in bytes of the picture of goq_draw_with to `count`. Errors: the same. */
goq_answer goq_draw_with_length(const uint8_t *modules, size_t modules_length, uint32_t width,
    const goq_drawing *drawing, size_t *count);

/* Draws a PNG file like goq_draw_with, with a logo: the picture in a PNG file goes into the middle
   of the modules of `area`, in its own proportions, and is shrunk if it has more pixels both across
   and down. Make these modules light before, with goq_cover: then the symbol decodes whatever the
   logo shows. Eight bytes per pixel of `out`, and 1,000 more, are always enough. Errors: those of
   goq_draw_with; GOQ_NOT_IN_FORMAT for another format, GOQ_NO_SUCH_SIZE for more than 8,192 pixels
   a side, GOQ_NO_SUCH_AREA, GOQ_NOT_PICTURE, GOQ_BROKEN_PICTURE. */
goq_answer goq_draw_logo(const uint8_t *modules, size_t modules_length, uint32_t width,
    const goq_drawing *drawing, const void *logo, size_t logo_length, const goq_rectangle *area,
    void *out, size_t out_length, size_t *count);

/* -- Reading -- */

/* Decodes a square of modules: row by row from the top left corner, dark if not zero, without a
   quiet zone. The bytes go to `bytes` (GOQ_BYTES_MAX are always enough), the rest to `reading`.
   Damage is corrected: in each copy of the format information up to three wrong bits, in each block
   half as many wrong codewords as it has for error correction. Symbols with headers (ECI, FNC1,
   structured append) are not read: see goq_read_text, goq_join and goq_read_picture. Errors:
   GOQ_NO_SUCH_SIDE, GOQ_NO_FORMAT, GOQ_DAMAGED, GOQ_NOT_SPELLED. */
goq_answer goq_read(const uint8_t *modules, size_t modules_length, void *bytes,
    size_t bytes_length, goq_reading *reading);

/* Decodes like goq_read, but a square that may be rotated, mirrored or inverted: in the first of
   the sixteen positions in which it decodes. Errors: GOQ_NOT_READ. */
goq_answer goq_read_any(const uint8_t *modules, size_t modules_length, void *bytes,
    size_t bytes_length, goq_any_reading *reading);

/* Decodes a square of modules, given as to goq_read, into the UTF-8 text that readers show, such as
   that of goq_encode_text or goq_encode_marked_text. What else is known goes to `reading`. Errors:
   GOQ_NO_SUCH_SIDE, GOQ_NO_FORMAT, GOQ_DAMAGED, GOQ_NOT_SHOWN. */
goq_answer goq_read_text(const uint8_t *modules, size_t modules_length, void *text,
    size_t text_length, goq_reading *reading);

/* Writes the text that a code shows, in UTF-8, to `text` (three times as many bytes as the data has
   are always enough). `bytes` and `parts` are its data and its headers and segments, as
   goq_read_picture returns them. Bytes after a GOQ_ECI header, up to the next, are in the character
   set of its number, and bytes before any in UTF-8. The numbers are GOQ_ISO_8859_1 .. GOQ_UTF_8 and
   1 (ISO 8859-1); under 0, 2 (code page 437) and 27 (ASCII) only bytes below 128 are text, and
   under 170 of these not # $ @ [ \ ] ^ ` { | } ~. Errors: GOQ_NOT_IN_SET if the bytes are no such
   text, e.g. since a set is not known, or a GOQ_KANJI segment is not under GOQ_SHIFT_JIS. */
goq_answer goq_text(const void *bytes, size_t bytes_length, const goq_part *parts,
    size_t parts_length, void *text, size_t text_length, size_t *count);

/* Writes the text of bytes under one ECI designator, or in UTF-8 if it is GOQ_UNMARKED, like
   goq_text. Errors: GOQ_NO_SUCH_SET if the number has no set; then those of goq_text. */
goq_answer goq_decode(const void *bytes, size_t bytes_length, uint32_t designator, void *text,
    size_t text_length, size_t *count);

/* Writes the number of the mask that the format information of a square names to `mask`: 0 to 7, in
   Micro 0 to 3. Errors: GOQ_NO_SUCH_SIDE, GOQ_NO_FORMAT. */
goq_answer goq_mask(const uint8_t *modules, size_t modules_length, uint32_t *mask);

/* Returns how many bytes of a file its first picture takes, with the white space and comments
   behind it. PBM and PGM files may have several pictures, one after another: what follows these
   bytes is the next one. All other files have one, which takes all bytes; so does a picture that is
   cut off or wrong. The result is 0 only if `file_length` is. */
size_t goq_picture_length(const void *file, size_t file_length);

/* Decodes the codes in a picture: a PNG, PBM or PGM file, or half blocks. Of a file with several
   pictures it reads the first; goq_picture_length says where the next one begins. A picture shows
   one code in an even margin, or several that are found by their finder patterns; these come from
   top to bottom, and from left to right if side by side. `codes` gets one item per code. The
   headers and segments of all codes go to `parts`, their bytes to `bytes`, code after code, and the
   numbers of codes, parts and bytes to `scan`; only scan->size is read. Per code, GOQ_PARTS_MAX
   parts and GOQ_BYTES_MAX bytes are enough. After FNC1, a separator between elements is byte 29. Of
   more than 64 codes in a picture some may be missed. Errors: GOQ_NO_SUCH_STRUCT,
   GOQ_LARGE_PICTURE, GOQ_NOT_PICTURE, GOQ_BROKEN_PICTURE (also for a PNG file of more than
   67,108,864 pixels), GOQ_NO_SQUARE; if a square was found but no code decodes, GOQ_NO_SUCH_SIDE,
   GOQ_NO_FORMAT, GOQ_DAMAGED, GOQ_NOT_SPELLED. */
goq_answer goq_read_picture(const void *picture, size_t picture_length, goq_code *codes,
    size_t codes_length, goq_part *parts, size_t parts_length, void *bytes, size_t bytes_length,
    goq_scan *scan);

/* Tells which squares in a picture, given as to goq_read_picture, look like codes but do not
   decode, and have no pixel of a code that does. `missed` gets one item per square. Errors:
   GOQ_LARGE_PICTURE, GOQ_NOT_PICTURE, GOQ_BROKEN_PICTURE, GOQ_NO_SQUARE; if no code decodes,
   GOQ_NO_SUCH_SIDE, GOQ_NO_FORMAT, GOQ_DAMAGED, GOQ_NOT_SPELLED. */
goq_answer goq_missed(const void *picture, size_t picture_length, goq_missed_code *missed,
    size_t missed_length, size_t *count);

/* Reports where the codes in a picture depart from the standard. The picture and the order of codes
   are those of goq_read_picture. `checks` gets one item per code; `wrong` gets the number of wrong
   codewords of each block, code after code; the numbers of codes and blocks go to `counts`, of
   which only counts->size is read. Per code, GOQ_BLOCKS_MAX numbers are enough. If no code decodes,
   and the picture shows a square in an even margin whose bits are not segments and a terminator,
   that square is checked. Errors: GOQ_NO_SUCH_STRUCT, GOQ_LARGE_PICTURE, GOQ_NOT_PICTURE,
   GOQ_BROKEN_PICTURE, GOQ_NO_SQUARE; if a square was found but no code decodes, GOQ_NO_SUCH_SIDE,
   GOQ_NO_FORMAT, GOQ_DAMAGED. */
goq_answer goq_check(const void *picture, size_t picture_length, goq_checked *checks,
    size_t checks_length, size_t *wrong, size_t wrong_length, goq_checks *counts);

/* Reports where a square of modules, given as to goq_read, departs from the standard. The number of
   wrong codewords of each block goes to `wrong` (GOQ_BLOCKS_MAX are always enough), the rest to
   `check`. Errors: GOQ_NO_SUCH_SIDE, GOQ_NO_FORMAT, GOQ_DAMAGED. */
goq_answer goq_check_square(const uint8_t *modules, size_t modules_length, size_t *wrong,
    size_t wrong_length, goq_checked *check);

/* Joins the data of several symbols (structured append), whose squares may come in any order.
   GOQ_SEVERAL_MAX * GOQ_BYTES_MAX bytes are always enough for the data. Errors: for the first
   square that is not a part, GOQ_NO_SUCH_SIDE, GOQ_NO_FORMAT, GOQ_DAMAGED, GOQ_NOT_SPELLED,
   GOQ_NOT_SEVERAL; then GOQ_STRANGER; each with the index of the square in `place`. GOQ_MISSING or
   GOQ_TWICE, with the number of the part in `place`, counted from 0; GOQ_PARITY. */
goq_answer goq_join(const goq_square *squares, size_t squares_length, void *out,
    size_t out_length, size_t *count, size_t *place);

/* -- Contents -- */

/* Writes the text of a payload: a Wi-Fi network, a contact, a payment and so on. `kind` is GOQ_WIFI
   .. GOQ_PROMPTPAY, and `fields` are its fields in the order of their names; those that are left
   out at the end are empty. Encode the text with goq_encode_text. Text of more than GOQ_BYTES_MAX
   bytes fits no symbol. Errors: GOQ_NO_SUCH_CONTENT; for the first field with an error
   GOQ_NO_SUCH_FIELD, GOQ_NOT_TEXT; if the format rejects a field, GOQ_FIELD_EMPTY ..
   GOQ_FIELD_UNUSED, GOQ_FIELD_DECIMALS or GOQ_FIELD_WORD. If a field is wrong, `place` says which;
   GOQ_PAYMENT_FIELDS means that a payment is too long as a whole. */
goq_answer goq_content(uint32_t kind, const goq_field *fields, size_t fields_length, void *out,
    size_t out_length, size_t *count, size_t *place);

/* Writes a GS1 element string: the elements one after the other, with a separator (byte 29) between
   an element without a predefined length and the next. Encode it with goq_encode_segments, as
   GOQ_BYTES after GOQ_FNC1_FIRST, or use goq_encode_gs1. Errors, with the index of the first wrong
   element in `place`: GOQ_NOT_TEXT; else GOQ_NO_SUCH_IDENTIFIER, GOQ_ELEMENT_LENGTH,
   GOQ_FIELD_CHARACTER, GOQ_FIELD_CHECK_DIGITS, GOQ_FIELD_RANGE (a date). */
goq_answer goq_gs1(const goq_element *elements, size_t elements_length, void *out,
    size_t out_length, size_t *count, size_t *place);

/* Encodes GS1 elements (FNC1 in the first position), in segments of the fewest bits. `options` are
   those of goq_encode_with; `manner` and `boost` have no effect. `modules` and `symbol` are written
   as by goq_encode. Errors: GOQ_NO_SUCH_STRUCT, GOQ_NO_SUCH_LEVEL, GOQ_NO_SUCH_VERSION,
   GOQ_NO_SUCH_MANNER; with the index of the first wrong element in `place` GOQ_NOT_TEXT, else
   GOQ_NO_SUCH_IDENTIFIER, GOQ_ELEMENT_LENGTH, GOQ_FIELD_CHARACTER, GOQ_FIELD_CHECK_DIGITS,
   GOQ_FIELD_RANGE (a date); GOQ_NO_ROOM (also for Micro, which has no such symbols),
   GOQ_NO_SUCH_MASK. */
goq_answer goq_encode_gs1(const goq_element *elements, size_t elements_length,
    const goq_options *options, uint8_t *modules, size_t modules_length, goq_symbol *symbol,
    size_t *place);

/* -- Areas for logos -- */

/* Reports what an area takes of a symbol of this version and level. How many codewords of each
   block have modules in it goes to `touched` (GOQ_BLOCKS_MAX are always enough), the rest to
   `area_use`. Errors: GOQ_NO_SUCH_LEVEL, GOQ_NO_SUCH_VERSION, GOQ_LEVEL_NOT_IN_VERSION,
   GOQ_NO_SUCH_AREA (also for more than 31,329 rectangles). */
goq_answer goq_reserve(uint32_t version, uint32_t level, const goq_rectangle *area,
    size_t area_length, size_t *touched, size_t touched_length, goq_area_use *area_use);

/* Finds the largest rectangle in the middle of a symbol of this version and level that may show
   anything and leaves what `wish` asks for, and writes it to `rectangle`. Both sides are odd.
   Errors: GOQ_NO_SUCH_STRUCT, GOQ_NO_SUCH_LEVEL, GOQ_NO_SUCH_VERSION, GOQ_LEVEL_NOT_IN_VERSION,
   GOQ_NO_AREA. */
goq_answer goq_largest_area(uint32_t version, uint32_t level, const goq_wish *wish,
    goq_rectangle *rectangle);

/* Makes an area of a symbol light, as room for a logo. Whatever the area shows afterwards, the
   symbol decodes to the same data and headers and nothing else. `modules` is the symbol, as written
   by goq_encode. Errors: GOQ_NO_SUCH_SIDE, GOQ_NO_FORMAT, GOQ_NO_SUCH_AREA (also for more than
   31,329 rectangles), GOQ_AREA_BLOCK with the block that loses the most codewords in `place`,
   GOQ_AREA_FORMAT. */
goq_answer goq_cover(uint8_t *modules, size_t modules_length, const goq_rectangle *area,
    size_t area_length, size_t *place);

/* Makes exactly so much of a symbol wrong, to test readers: as many codewords of each block, bits
   and modules of patterns as `wrong` says, and no other module. `modules` is the symbol, as written
   by goq_encode; equal seeds make the same wrong. How much may be wrong goes to `promised`. Errors:
   GOQ_NO_SUCH_STRUCT, GOQ_NO_SUCH_SIDE, GOQ_NO_FORMAT, GOQ_MANY_CODEWORDS, GOQ_MANY_FORMAT_BITS,
   GOQ_MANY_VERSION_BITS, GOQ_MANY_PATTERN_MODULES. */
goq_answer goq_damage(uint8_t *modules, size_t modules_length, const goq_wrong *wrong,
    goq_promised *promised);

/* -- Calls with defaults --

   These are made of the calls above, not exported by the library: tested, not proved. */

/* Encodes `data` like goq_encode_with, at the error correction level `level` (GOQ_L .. GOQ_H), in
   the smallest Normal version that holds it. Errors: GOQ_NO_SUCH_LEVEL, GOQ_NO_ROOM. */
static inline goq_answer goq_encode(const void *data, size_t data_length, uint32_t level,
    uint8_t *modules, size_t modules_length, goq_symbol *symbol)
{
    goq_options options = GOQ_OPTIONS;
    options.level = level;
    return goq_encode_with(data, data_length, &options, modules, modules_length, symbol);
}

/* Encodes `data` like goq_encode, but in the version `version` (1 to 40, or GOQ_MICRO(1 to 4)).
   Errors: GOQ_NO_SUCH_LEVEL, GOQ_NO_SUCH_VERSION, GOQ_TOO_LONG, GOQ_NO_MODE,
   GOQ_LEVEL_NOT_IN_VERSION, GOQ_NO_ROOM. */
static inline goq_answer goq_encode_in(const void *data, size_t data_length, uint32_t version,
    uint32_t level, uint8_t *modules, size_t modules_length, goq_symbol *symbol)
{
    goq_options options = GOQ_OPTIONS;
    goq_answer answer;
    options.level = level;
    options.version = version != 0 ? version : UINT32_MAX; /* 0 would be the smallest */
    answer = goq_encode_with(data, data_length, &options, modules, modules_length, symbol);
    return answer == GOQ_NO_ROOM && data_length > GOQ_DATA_MAX ? (goq_answer)GOQ_TOO_LONG : answer;
}

/* Encodes UTF-8 text like goq_encode, but without Kanji segments: readers that take bytes for UTF-8
   show the text. For readers that guess the character set, goq_encode_marked_text says that it is
   UTF-8. Errors: GOQ_NO_SUCH_LEVEL, GOQ_NOT_TEXT, GOQ_NO_ROOM. */
static inline goq_answer goq_encode_text(const void *text, size_t text_length, uint32_t level,
    uint8_t *modules, size_t modules_length, goq_symbol *symbol)
{
    goq_options options = GOQ_OPTIONS;
    options.level = level;
    options.manner = GOQ_AS_TEXT;
    return goq_encode_with(text, text_length, &options, modules, modules_length, symbol);
}

/* Encodes UTF-8 text like goq_encode_text, after a header that marks it as UTF-8 (ECI 26, 12 bits).
   Errors: those of goq_encode_text. */
static inline goq_answer goq_encode_marked_text(const void *text, size_t text_length,
    uint32_t level, uint8_t *modules, size_t modules_length, goq_symbol *symbol)
{
    goq_options options = GOQ_OPTIONS;
    options.level = level;
    options.manner = GOQ_AS_MARKED_TEXT;
    return goq_encode_with(text, text_length, &options, modules, modules_length, symbol);
}

/* Finds the smallest Normal version that holds `data` at a level, and writes it to `version`; it
   encodes `data`. Errors: GOQ_NO_SUCH_LEVEL, GOQ_NO_ROOM. */
static inline goq_answer goq_smallest_version(const void *data, size_t data_length,
    uint32_t level, uint32_t *version)
{
    uint8_t modules[GOQ_MODULES_MAX];
    goq_symbol symbol;
    goq_answer answer = goq_encode(data, data_length, level, modules, sizeof modules, &symbol);
    if (answer == GOQ_OK)
        *version = symbol.version;
    return answer;
}

/* Draws `modules` like goq_draw_with, in black on white, in the format `format` (GOQ_HALF_BLOCKS ..
   GOQ_ASCII). `zone` is the width of the quiet zone in modules (usually 4, for Micro 2), and
   `scale` the pixels per module. Errors: GOQ_NO_SUCH_FORMAT, GOQ_NOT_SQUARE, GOQ_NO_SUCH_SIZE. */
static inline goq_answer goq_draw(const uint8_t *modules, size_t modules_length, uint32_t width,
    uint32_t zone, uint32_t scale, uint32_t format, void *out, size_t out_length, size_t *count)
{
    goq_drawing drawing = GOQ_DRAWING;
    drawing.zone = zone;
    drawing.scale = scale;
    drawing.format = format;
    return goq_draw_with(modules, modules_length, width, &drawing, out, out_length, count);
}

/* Writes the length in bytes of the picture of goq_draw to `count`. Errors: the same. */
static inline goq_answer goq_draw_length(const uint8_t *modules, size_t modules_length,
    uint32_t width, uint32_t zone, uint32_t scale, uint32_t format, size_t *count)
{
    goq_drawing drawing = GOQ_DRAWING;
    drawing.zone = zone;
    drawing.scale = scale;
    drawing.format = format;
    return goq_draw_with_length(modules, modules_length, width, &drawing, count);
}

/* Returns the fewest pixels per module with which a print of so many dots per inch has the 0.25 mm
   per module that many readers need. A side is then (width + 2 * zone) times as long. */
static inline uint32_t goq_smallest_scale(uint32_t dpi)
{
    uint32_t scale = (uint32_t)((dpi * (uint64_t)25 + 2539) / 2540);
    return scale != 0 ? scale : 1;
}

/* Writes to `count` how many bytes goq_read would write. Errors: GOQ_NO_SUCH_SIDE, GOQ_NO_FORMAT,
   GOQ_DAMAGED, GOQ_NOT_SPELLED. */
static inline goq_answer goq_read_length(const uint8_t *modules, size_t modules_length,
    size_t *count)
{
    uint8_t bytes[GOQ_BYTES_MAX];
    goq_reading reading;
    goq_answer answer = goq_read(modules, modules_length, bytes, sizeof bytes, &reading);
    if (answer == GOQ_OK)
        *count = reading.length;
    return answer;
}

#ifdef __cplusplus
}
#endif

#endif
