"""The fields of payloads for the library, and the errors for them."""
import ctypes
import datetime
import decimal
import numbers
import warnings
from typing import Any, Dict, List, Tuple, Type, Union

from . import _checks
from . import _numbers as goq
from ._checks import shown
from ._library import Element, Field, library
from ._numbers import BYTES_MAX, PAYLOADS
from .errors import FIELDS, FORMS, RANGES, NoRoom, TooLong, WrongField, refuse

Number = Union[int, float, str, decimal.Decimal]

Time = Union[str, datetime.date]
# The arguments that are numbers, times and parties.
NUMBERS = "amount", "latitude", "longitude", "digits", "period", "counter"
TIMES, PARTIES = ("begin", "end", "stamp"), ("creditor", "debtor")
PARTY = "name", "street", "number", "code", "city", "country"
# A number with more digits before the point, or zeros after it, fits no format.
MOST_DIGITS = 40


class EmptyField(WrongField):
    pass


class TooShort(WrongField):
    pass


class ControlCharacter(WrongField):
    pass


class WrongCharacter(WrongField):
    pass


class WrongCheckDigits(WrongField):
    pass


class OutOfRange(WrongField):
    pass


class Unused(WrongField):
    pass


class TooManyDecimals(WrongField):
    pass


class UnknownWord(WrongField):
    pass


class UnknownIdentifier(WrongField):
    pass


class WrongLength(WrongField):
    pass


_CAUSES: Dict[int, Type[WrongField]] = {getattr(goq, it[0]): globals()[it[1]] for it in FIELDS}
WrongField.__module__ = "goqlanis.contents"
for _, _name, _why in FIELDS:
    _each = globals()[_name]
    _each.why = _why
    if _each is not TooLong:
        _each.__module__, _each.__doc__ = "goqlanis.contents", f"The field is wrong: {_why}."


def text_of(kind: str, given: Dict[str, Any]) -> str:
    """Returns the text of a kind of payload, whose fields are the arguments of a call."""
    told = {name.replace("creditor.", "").replace(".", "_"): (name, text)
            for it, value in given.items() for name, text in _fields_of(it, value)}
    fields = [told.pop(it) for it in PAYLOADS[kind].split()]
    assert not told
    rows = (Field * len(fields))(*(_field(*it) for it in fields))
    answer, text, at = _written(library.goq_content, getattr(goq, kind.upper()), rows, len(rows))
    _refuse(answer, fields[at][0] if at < len(fields) else "text")
    return text.decode()


def _written(call: Any, *given: Any) -> Tuple[int, bytes, int]:
    """Returns the answer of a call, the text that it writes, and the place of what is wrong."""
    out = ctypes.create_string_buffer(BYTES_MAX)
    count, place = ctypes.c_size_t(), ctypes.c_size_t()
    answer = call(*given, out, BYTES_MAX, ctypes.byref(count), ctypes.byref(place))
    return answer, out.raw[:count.value], place.value


def _fields_of(name: str, value: Any) -> List[Tuple[str, Any]]:
    """Returns the fields of an argument: itself, or those of a party."""
    if name in PARTIES:
        if value is None and name == "debtor":
            return [(f"{name}.{part}", "") for part in PARTY]
        if getattr(value, "_fields", ()) != PARTY:
            raise TypeError(f"{name} is a contents.Party(name, street, ..), not {shown(value)}")
        return [(f"{name}.{part}", text) for part, text in zip(PARTY, value)]
    if name == "hidden":
        value = "true" if _checks.flag(name, value) else ""
    elif name in NUMBERS:
        value = "" if value is None and name == "amount" else number(name, value)
    elif name in TIMES:
        value = time(name, value)
    elif name == "birthday" and isinstance(value, datetime.date):
        value = value.isoformat()[:10]
    return [(name, value)]


def _field(name: str, value: str) -> Field:
    data = _checks.text(name, value).encode()
    return Field(data, len(data))


def elements_of(elements: Any) -> Any:
    pairs = _checks.listed("elements", elements, "pairs, e.g. ('01', '09501101530003')")
    if not pairs:
        raise EmptyField("elements")
    return (Element * len(pairs))(*(_element(f"element {at + 1}", it)
                                    for at, it in enumerate(pairs)))


def _element(name: str, pair: Any) -> Element:
    if not isinstance(pair, (tuple, list)) or len(pair) != 2:
        raise TypeError(f"{name} is a pair, e.g. ('01', '09501101530003'), not {shown(pair)}")
    identifier, value = (_checks.text(f"each part of {name}", it).encode() for it in pair)
    return Element(identifier, len(identifier), value, len(value))


def string_of(elements: Any) -> bytes:
    """Returns the element string of elements, or raises the error for the first wrong one."""
    answer, data, at = _written(library.goq_gs1, elements, len(elements))
    if answer in _CAUSES:
        said = f"element {at + 1}{_wrong(answer, elements[at])}"
        raise _CAUSES[answer](f"elements[{at}]", said)
    _refuse(answer, "")
    return data


def _wrong(answer: int, element: Element) -> str:
    identifier, why = repr(element.identifier.decode())[1:-1], _CAUSES[answer].why
    if answer == goq.NO_SUCH_IDENTIFIER and identifier.startswith("("):
        return f": write {_checks.cut(identifier.strip('()'))} without brackets"
    if answer == goq.NO_SUCH_IDENTIFIER:
        why = "no such identifier is known; they have two to four digits, as 01, 414 and 3103"
    if answer == goq.ELEMENT_LENGTH:
        why = (f"its value has {element.value_length:,} characters; it needs "
               f"{_lengths(element.identifier)}")
    return f", ({_checks.cut(identifier)}): {why}"


def _lengths(identifier: bytes) -> str:
    """Says how many characters a value may have: one number, or from one to another."""
    tried = (Element(identifier, len(identifier), b"0" * count, count) for count in range(91))
    taken = [it.value_length for it in tried
             if _written(library.goq_gs1, (Element * 1)(it), 1)[0] != goq.ELEMENT_LENGTH]
    return " to ".join(map(str, sorted({taken[0], taken[-1]})))


# What would help, by the name of the field, in the words of the program.
_FORMS = {name: said for names, said in FORMS for name in names.split()}
_RANGES = {name: said for names, said in RANGES for name in names.split()}


def _said(kind: Type[WrongField], field: str) -> str:
    """Says what is wrong with a field and what would help; empty if the exception says it all."""
    if kind is OutOfRange and field in _RANGES:
        return f"{field}: {kind.why}: {_RANGES[field]}"
    helps = _FORMS.get(field, "") if kind in (TooLong, TooShort, WrongCharacter) else ""
    return f"{field}: {kind.why}; {helps}" if helps else ""


def _refuse(answer: int, field: str) -> None:
    if answer in _CAUSES:
        raise _CAUSES[answer](field, _said(_CAUSES[answer], field))
    if answer == goq.SMALL_BUFFER:
        raise NoRoom(f"no code holds a text of more than {BYTES_MAX:,} bytes")
    refuse(answer)


def number(name: str, value: Number) -> str:
    """Returns the digits of a number, with a point before decimals; a str is returned unchanged."""
    if isinstance(value, str):
        return value
    whole, is_real = _checks.index(value), isinstance(value, numbers.Real)
    is_written = is_real and not isinstance(value, (bool, numbers.Rational))
    if whole is None and not is_written and not isinstance(value, decimal.Decimal):
        raise TypeError(f"{name} is a number, or one in a str, not {shown(value)}")
    found = decimal.Decimal(str(value) if whole is None else whole)
    if not found.is_finite() or abs(found.adjusted()) > MOST_DIGITS:
        kind = TooManyDecimals if found.adjusted() < 0 else OutOfRange
        raise kind(name, _said(kind, name))
    return format(found, "f")


def time(name: str, value: Time) -> str:
    """Returns the text of a day, or of a time in UTC; a str is returned unchanged."""
    if isinstance(value, str):
        return value
    if not isinstance(value, datetime.date):
        raise TypeError(f"{name} is a datetime.date, a datetime.datetime or a str, "
                        f"not {shown(value)}")
    if not isinstance(value, datetime.datetime):
        return value.isoformat()
    if value.utcoffset() is None:
        raise ValueError(f"{name}: {value} has no time zone: take .astimezone(), or "
                         ".replace(tzinfo=datetime.timezone.utc)")
    try:
        utc = value.astimezone(datetime.timezone.utc)
    except OverflowError:
        raise OutOfRange(name, f"{name}: {value} is outside the years 1 to 9999 in UTC") from None
    if utc.microsecond:
        warnings.warn(f"{name}: calendars have whole seconds: .{utc.microsecond:06} is left out",
                      stacklevel=5)
    return utc.replace(tzinfo=None, microsecond=0).isoformat() + "Z"
