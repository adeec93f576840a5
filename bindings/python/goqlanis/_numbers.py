"""The numbers, structs and calls of bindings/c/goqlanis.h, and the formats; written by
bindings/same. A field is a number (uint32_t) unless it has another type. FORMATS has, by
file extension, the number, whether it is text, the default pixels of a module, and
whether it has colours; SIDES the maximum pixels per side, by these numbers, if there is a
limit."""
VERSION = 10000
(OK, NO_SUCH_LEVEL, NO_SUCH_VERSION, LEVEL_NOT_IN_VERSION, TOO_LONG, NO_MODE, NO_ROOM, SMALL_BUFFER,
    OUT_OF_MEMORY, NO_SUCH_FORMAT, NOT_SQUARE, NO_SUCH_SIZE, NOT_TEXT, NO_SUCH_KIND, NOT_IN_MODE,
    NO_SUCH_NUMBER, NO_SUCH_SIDE, NO_FORMAT, DAMAGED, NOT_SPELLED, NO_SUCH_STRUCT, NO_SUCH_MANNER,
    NO_SUCH_MASK, NOT_IN_FORMAT, NOT_SHOWN, NOT_SEVERAL, STRANGER, MISSING, TWICE, PARITY, NOT_READ,
    NO_SUCH_AREA, NO_SUCH_CONTENT, NO_SUCH_FIELD, FIELD_EMPTY, FIELD_TOO_LONG, FIELD_TOO_SHORT,
    FIELD_CONTROL, FIELD_CHARACTER, FIELD_CHECK_DIGITS, FIELD_RANGE, FIELD_UNUSED,
    NO_SUCH_IDENTIFIER, ELEMENT_LENGTH, FIELD_DECIMALS, FIELD_WORD, NO_AREA, AREA_BLOCK,
    AREA_FORMAT, NOT_PICTURE, BROKEN_PICTURE, NO_SQUARE, LARGE_PICTURE, NO_SUCH_SET, NOT_IN_SET,
    MANY_CODEWORDS, MANY_FORMAT_BITS, MANY_VERSION_BITS, MANY_PATTERN_MODULES) = range(0, 59)
(L, M, Q, H) = range(0, 4)
(HALF_BLOCKS, LIGHT_HALF_BLOCKS, SVG, PIC, GREY, PNG, EPS, PBM, SVG_PATH, PGM, PDF, ZPL, TSPL,
    ESC_POS, XBM, PPM, ASCII, FORMATS) = range(0, 18)
(NUMERIC, ALPHANUMERIC, BYTES, KANJI, ECI, FNC1_FIRST, FNC1_SECOND, ONE_OF_SEVERAL) = range(0, 8)
(WIFI, MECARD, VCARD, PAYMENT, BILL, MAIL, GEO, TEL, SMS, OTP, EVENT, UPI, PIX,
    PROMPTPAY) = range(0, 14)
(AS_BYTES, AS_TEXT, AS_MARKED_TEXT) = range(0, 3)
SEVERAL_MAX = 16
MODULES_MAX = 31329
BYTES_MAX = 7089
DATA_MAX = 1048576
(UPRIGHT, TURNED_LEFT, UPSIDE_DOWN, TURNED_RIGHT, MIRRORED, FLIPPED, TRANSPOSED, ANTITRANSPOSED,
    INVERTED) = range(0, 9)
PARTS_MAX = 5912
BLOCKS_MAX = 81
STRUCTS = {"goq_options": "size level manner version min_version boost mask",
    "goq_several": "size level manner min_version max_version count",
    "goq_drawing": "size format zone scale dark light dpi finder_dark finder_light alignment_dark alignment_light timing_dark timing_light format_dark format_light version_dark version_light data_dark data_light",
    "goq_symbol": "version level width", "goq_segment": "kind number bytes:data length:size",
    "goq_field": "bytes:data length:size",
    "goq_element": "identifier:data identifier_length:size value:data value_length:size",
    "goq_reading": "version level mask wrong:size length:size",
    "goq_any_reading": "reading:goq_reading position",
    "goq_part": "kind number place symbols length:size",
    "goq_code": "reading:goq_reading position parts:size",
    "goq_scan": "size codes:size parts:size length:size",
    "goq_missed_code": "width:size left:size top:size why",
    "goq_wrong_modules": "finder:size alignment:size timing:size format:size version:size remainder:size",
    "goq_data_bits": "segments compared bits:size fewest:size terminator:size padding:size guessed:size are_utf8",
    "goq_rank": "lower:size equal:size",
    "goq_checked": "version level mask standard grade blocks:size allowed:size unused:size wrong:goq_wrong_modules data:goq_data_bits masks:goq_rank masks_here:goq_rank",
    "goq_checks": "size codes:size blocks:size", "goq_square": "modules:data length:size",
    "goq_rectangle": "left:size top:size width:size height:size",
    "goq_area_use": "blocks:size allowed:size worst:size first:size last:size least:size may_show_anything",
    "goq_wish": "size across down reserve keep_alignment",
    "goq_wrong": "size codewords:size format_bits:size version_bits:size pattern_modules:size seed:size",
    "goq_promised": "codewords:size is_promised"}
CALLS = {"goq_version": "", "goq_encode_with": "data size goq_options data size goq_symbol",
    "goq_encode_charset": "data size numbers size goq_options data size goq_symbol numbers sizes",
    "goq_encode_several": "data size goq_several data size goq_symbol sizes",
    "goq_encode_segments": "goq_segment size number number data size goq_symbol",
    "goq_smallest_version_of_segments": "goq_segment size number numbers", "goq_width": "number",
    "goq_is_functional": "number number number",
    "goq_draw_with": "data size number goq_drawing data size sizes",
    "goq_draw_with_length": "data size number goq_drawing sizes",
    "goq_draw_logo": "data size number goq_drawing data size goq_rectangle data size sizes",
    "goq_read": "data size data size goq_reading",
    "goq_read_any": "data size data size goq_any_reading",
    "goq_read_text": "data size data size goq_reading",
    "goq_text": "data size goq_part size data size sizes",
    "goq_decode": "data size number data size sizes", "goq_mask": "data size numbers",
    "goq_picture_length": "data size",
    "goq_read_picture": "data size goq_code size goq_part size data size goq_scan",
    "goq_missed": "data size goq_missed_code size sizes",
    "goq_check": "data size goq_checked size sizes size goq_checks",
    "goq_check_square": "data size sizes size goq_checked",
    "goq_join": "goq_square size data size sizes sizes",
    "goq_content": "number goq_field size data size sizes sizes",
    "goq_gs1": "goq_element size data size sizes sizes",
    "goq_encode_gs1": "goq_element size goq_options data size goq_symbol sizes",
    "goq_reserve": "number number goq_rectangle size sizes size goq_area_use",
    "goq_largest_area": "number number goq_wish goq_rectangle",
    "goq_cover": "data size goq_rectangle size sizes",
    "goq_damage": "data size goq_wrong goq_promised"}
PAYLOADS = {"wifi": "ssid password security hidden",
    "mecard": "family given phone email url birthday note street city region code country",
    "vcard": "name family given organisation phone email url street city region code country note title birthday mobile work_phone home_phone nickname fax",
    "payment": "name iban amount bic purpose reference message information",
    "bill": "iban name street number code city country amount currency reference message debtor_name debtor_street debtor_number debtor_code debtor_city debtor_country",
    "mail": "address subject body cc bcc", "geo": "latitude longitude", "tel": "number",
    "sms": "number body", "otp": "account secret issuer algorithm digits period counter",
    "event": "begin end summary location description uid stamp",
    "upi": "payee name amount note reference category",
    "pix": "payee name city amount reference description", "promptpay": "payee amount"}
CHARSETS = {"iso-8859-1": 3, "iso-8859-2": 4, "iso-8859-3": 5, "iso-8859-4": 6, "iso-8859-5": 7,
    "iso-8859-6": 8, "iso-8859-7": 9, "iso-8859-8": 10, "iso-8859-9": 11, "iso-8859-10": 12,
    "iso-8859-11": 13, "iso-8859-13": 15, "iso-8859-14": 16, "iso-8859-15": 17, "iso-8859-16": 18,
    "shift-jis": 20, "windows-1250": 21, "windows-1251": 22, "windows-1252": 23, "windows-1256": 24,
    "utf-8": 26}
FORMATS = {"txt": (0, True, 1, False), "png": (5, False, 8, True), "svg": (8, True, 8, True),
    "eps": (6, True, 8, True), "pic": (3, True, 1, False), "pbm": (7, False, 8, False),
    "pgm": (9, False, 8, False), "pdf": (10, False, 8, True), "zpl": (11, True, 8, False),
    "tspl": (12, False, 8, False), "escpos": (13, False, 8, False), "xbm": (14, True, 8, False),
    "ppm": (15, False, 8, True)}
SIDES = {0: 4096, 1: 4096, 4: 16384, 5: 65535, 7: 16384, 9: 16384, 12: 16384, 13: 16384, 14: 16384,
    15: 16384, 16: 4096}
