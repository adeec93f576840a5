"""Writes the payloads of QR codes: Wi-Fi networks, contacts, payments, links and events.

Each function returns the text to encode, from which exactly its fields can be read back. Account
numbers, references, telephone numbers and secrets may have spaces and lowercase letters, and
amounts a comma.

>>> import goqlanis
>>> from goqlanis import contents
>>> text = contents.wifi("mynetwork", "mypassword")
>>> text
'WIFI:T:WPA;S:mynetwork;P:mypassword;;'
>>> goqlanis.encode(text).version
'3'

If the format cannot express a field, a subclass of WrongField is raised: its name says why, and
`field` names the argument:

>>> contents.payment("Red Cross of Belgium", "BE72000000001617", "1.00")
Traceback (most recent call last):
    ...
goqlanis.contents.WrongCheckDigits: iban: the check digits do not match: look for a mistyped or \
swapped digit
"""
import warnings
from typing import Iterable, NamedTuple, Optional, Tuple, Union

from ._payloads import (ControlCharacter, EmptyField, Number, OutOfRange, Time, TooLong,
                      TooManyDecimals, TooShort, UnknownIdentifier, UnknownWord, Unused,
                      WrongCharacter, WrongCheckDigits, WrongField, WrongLength, elements_of,
                      number, string_of, text_of)

__all__ = ["Party", "wifi", "mecard", "vcard", "payment", "bill", "mail", "geo", "tel", "sms",
           "totp", "hotp", "event", "upi", "pix", "promptpay", "gs1", "WrongField", "EmptyField",
           "TooLong", "TooShort", "ControlCharacter", "WrongCharacter", "WrongCheckDigits",
           "OutOfRange", "Unused", "TooManyDecimals", "UnknownWord", "UnknownIdentifier",
           "WrongLength"]


def wifi(ssid: str, password: str = "", security: str = "", hidden: bool = False) -> str:
    """Returns the text of a Wi-Fi network.

    `security` is "open" (or "nopass", "none"), "WEP", "WPA" (or "WPA2") or "WPA3", in upper or
    lower case; the default is "WPA" if there is a password, otherwise "open". An empty password is
    none. `hidden` says that the network does not broadcast its name.

    >>> wifi('"foo;bar\\\\baz"', hidden=True)
    'WIFI:T:nopass;S:\\\\"foo\\\\;bar\\\\\\\\baz\\\\";H:true;;'
    """
    text = text_of("wifi", locals())
    if text.startswith("WIFI:T:WPA;") and len(password) < 8:
        warnings.warn("password: it has fewer than 8 characters, which WPA needs", stacklevel=2)
    return text


def mecard(family: str, given: str = "", phone: str = "", email: str = "", url: str = "",
           birthday: Time = "", note: str = "", street: str = "", city: str = "", region: str = "",
           code: str = "", country: str = "") -> str:
    """Returns the text of a contact as MECARD.

    `family` is the family name, or the only name, `birthday` a day, e.g. "1970-01-31", and `code`
    the postal code.

    >>> mecard("Owen", "Sean", email="srowen@example.com")
    'MECARD:N:Owen,Sean;EMAIL:srowen@example.com;;'
    """
    return text_of("mecard", locals())


def vcard(name: str, family: str, given: str = "", organisation: str = "", phone: str = "",
          email: str = "", url: str = "", street: str = "", city: str = "", region: str = "",
          code: str = "", country: str = "", note: str = "", title: str = "", birthday: Time = "",
          mobile: str = "", work_phone: str = "", home_phone: str = "", nickname: str = "",
          fax: str = "") -> str:
    """Returns the text of a contact as vCard 3.0.

    `name` is the full name, as it is displayed, `birthday` a day, e.g. "1970-01-31", and `code` the
    postal code.

    >>> vcard("Frank Dawson", "Dawson", "Frank", email="fdawson@earthlink.net").splitlines()[2:5]
    ['N:Dawson;Frank;;;', 'FN:Frank Dawson', 'EMAIL:fdawson@earthlink.net']
    """
    return text_of("vcard", locals())


def payment(name: str, iban: str, amount: Number, bic: str = "", purpose: str = "",
            reference: str = "", message: str = "", information: str = "") -> str:
    """Returns the text of a SEPA credit transfer (EPC069-12) of an amount in euros, for a symbol of
    level M and at most version 13.

    With a BIC the text has version 001, without one version 002. `reference` is one of ISO 11649,
    instead of a `message`; `purpose` has up to four letters and digits; `information` is a note to
    the payer.

    >>> text = payment("Red Cross of Belgium", "BE72000000001616", "1.00", "BPOTBEB1", "CHAR")
    >>> text.splitlines()[4:8]
    ['BPOTBEB1', 'Red Cross of Belgium', 'BE72000000001616', 'EUR1.00']
    """
    amount = number("amount", amount)
    return text_of("payment", locals())


class Party(NamedTuple):
    """The creditor or debtor of a bill: `number` is the house number, `code` the postal code, and
    `country` two letters, e.g. "CH"."""
    name: str
    street: str = ""
    number: str = ""
    code: str = ""
    city: str = ""
    country: str = ""


def bill(iban: str, creditor: Party, amount: Optional[Number] = None, currency: str = "CHF",
         reference: str = "", message: str = "", debtor: Optional[Party] = None) -> str:
    """Returns the text of a Swiss QR bill, for a symbol of level M and at most version 25, without
    the Swiss cross.

    Without an `amount` it is left open; `currency` is "CHF" or "EUR". For a QR-IBAN, `reference`
    has 27 digits; for another account it begins with RF or is empty.

    >>> schneider = Party("Robert Schneider AG", "Rue du Lac", "1268", "2501", "Biel", "CH")
    >>> bill("CH5800791123000889012", schneider, currency="EUR",
    ...      reference="RF18539007547034").splitlines()[27:]
    ['SCOR', 'RF18539007547034', '', 'EPD']
    """
    return text_of("bill", locals())


def mail(address: str, subject: str = "", body: str = "", cc: str = "", bcc: str = "") -> str:
    """Returns a link that writes an e-mail. Commas separate several addresses.

    >>> mail("infobot@example.com", body="send current-issue\\nsend index")
    'mailto:infobot@example.com?body=send%20current-issue%0D%0Asend%20index'
    """
    return text_of("mail", locals())


def geo(latitude: Number, longitude: Number) -> str:
    """Returns a link to a place, in degrees north of the equator and east of Greenwich, each with
    at most six decimal places.

    >>> geo("13.4125", "103.8667")
    'geo:13.4125,103.8667'
    >>> geo(90, -22.43)
    'geo:90,-22.43'
    """
    return text_of("geo", locals())


def tel(number: str) -> str:
    """Returns a link that calls a telephone number.

    >>> tel("+1-201-555-0123")
    'tel:+1-201-555-0123'
    """
    return text_of("tel", locals())


def sms(number: str, body: str = "") -> str:
    """Returns a link that writes a text message to a telephone number.

    >>> sms("+15105550101", "hello there")
    'sms:+15105550101?body=hello%20there'
    """
    return text_of("sms", locals())


def totp(account: str, secret: str, issuer: str = "", algorithm: str = "SHA1", digits: int = 6,
         period: int = 30) -> str:
    """Returns a link to one-time passwords that change every `period` seconds, for authenticator
    apps; `secret` is in base 32.

    >>> totp("alice@google.com", "jbsw y3dp ehpk 3pxp", "Example")
    'otpauth://totp/Example:alice@google.com?secret=JBSWY3DPEHPK3PXP&issuer=Example'
    """
    return _otp(account, secret, issuer, algorithm, digits, period, "")


def hotp(account: str, secret: str, issuer: str = "", algorithm: str = "SHA1", digits: int = 6,
         counter: int = 0) -> str:
    """Returns a link to one-time passwords that change with a counter, which begins at `counter`.

    >>> hotp("alice@google.com", "JBSWY3DPEHPK3PXP", algorithm="SHA256", digits=8)
    'otpauth://hotp/alice@google.com?secret=JBSWY3DPEHPK3PXP&algorithm=SHA256&digits=8&counter=0'
    """
    return _otp(account, secret, issuer, algorithm, digits, "", counter)


def _otp(account: str, secret: str, issuer: str, algorithm: str, digits: int,
         period: Union[int, str], counter: Union[int, str]) -> str:
    return text_of("otp", locals())


def event(begin: Time, end: Time, summary: str = "", location: str = "", description: str = "",
          uid: str = "", stamp: Time = "") -> str:
    """Returns the text of a calendar event, from one time to another or for whole days.

    A time has a zone, e.g. "2026-11-28T14:00+01:00" or "2026-11-28T13:00Z". For whole days, `begin`
    and `end` are dates, and `end` is the day after the last. `uid` is an identifier that no other
    event has, and `stamp` the time when this was written; both may be left out.

    >>> from datetime import datetime, timezone
    >>> begin = datetime(1997, 7, 14, 17, tzinfo=timezone.utc)
    >>> event(begin, "1997-07-15T04:00Z", "Bastille Day Party").splitlines()[4:7]
    ['DTSTART:19970714T170000Z', 'DTEND:19970715T040000Z', 'SUMMARY:Bastille Day Party']
    """
    return text_of("event", locals())


def upi(payee: str, name: str = "", amount: Optional[Number] = None, note: str = "",
        reference: str = "", category: str = "") -> str:
    """Returns a link to a UPI payment in rupees; without an `amount`, the payer enters it.

    `payee` is an address, e.g. name@bank, `reference` e.g. an order number, and `category` the
    category of a merchant, four digits.

    >>> upi("nadeem@npci", "nadeem chinna", 10, "Pay", category="0000")
    'upi://pay?pa=nadeem@npci&pn=nadeem%20chinna&mc=0000&tn=Pay&am=10.00&cu=INR'
    """
    return text_of("upi", locals())


def pix(payee: str, name: str, city: str, amount: Optional[Number] = None, reference: str = "",
        description: str = "") -> str:
    """Returns the text of a static Pix payment in reais; without an `amount`, the payer enters it.

    `payee` is a Pix key. `name`, `city` and `description` are ASCII; `reference` (txid) has letters
    and digits.

    >>> pix("123e4567-e12b-12d1-a456-426655440000", "Fulano de Tal", "BRASILIA")[-46:]
    '13Fulano de Tal6008BRASILIA62070503***63041D3D'
    """
    return text_of("pix", locals())


def promptpay(payee: str, amount: Optional[Number] = None) -> str:
    """Returns the text of a PromptPay payment in baht; without an `amount`, the payer enters it.

    `payee` is a telephone number of 10 digits, a national or tax ID of 13, or an e-wallet of 15.

    >>> promptpay("000-000-0000", "4.22")
    '00020101021229370016A000000677010111011300660000000005802TH530376454044.226304E469'
    """
    return text_of("promptpay", locals())


def gs1(elements: Iterable[Tuple[str, str]]) -> bytes:
    """Returns the GS1 element string of pairs: an application identifier without parentheses, and
    its value.

    `goqlanis.encode_gs1` takes the same pairs and makes the symbol. If an element is wrong, `field`
    of the exception is its place, e.g. `elements[1]`.

    >>> gs1([("01", "03453120000011"), ("17", "191125"), ("10", "ABCD1234"), ("21", "10")])
    b'01034531200000111719112510ABCD1234\\x1d2110'
    """
    return string_of(elements_of(elements))
