//! Printed examples of the formats, and what they refuse.
use goqlanis::contents::*;

const MOMENT: Moment = Moment { day: Day { year: 1997, month: 7, day: 14 }, hour: 17, minute: 0, second: 0 };

#[test]
fn links_are_the_printed_ones() {
    let phone = Phone { number: "+15105550101" };
    assert_eq!(phone.tel().unwrap(), "tel:+15105550101");
    assert_eq!(phone.sms().unwrap(), "sms:+15105550101");
    assert_eq!(phone.message("hello there").unwrap(), "sms:+15105550101?body=hello%20there");
    let mail = Mail { address: "infobot@example.com", subject: "current-issue", ..Mail::default() };
    assert_eq!(mail.text().unwrap(), "mailto:infobot@example.com?subject=current-issue");
    assert_eq!(Place { latitude: 90_000_000, longitude: -22_430_000 }.text().unwrap(), "geo:90,-22.43");
    assert_eq!(Place { latitude: 0, longitude: i32::MIN }.text(), Err(ContentError::Refused("longitude", Cause::Range)));
}

#[test]
fn contacts_are_the_printed_ones() {
    let contact = Contact { family: "Owen", given: "Sean", email: "srowen@example.com", ..Contact::default() };
    assert_eq!(contact.mecard().unwrap(), "MECARD:N:Owen,Sean;EMAIL:srowen@example.com;;");
    let card = Card { name: "Frank Dawson", family: "Dawson", given: "Frank", country: "U.S.A.", ..Card::default() };
    assert_eq!(card.text().unwrap(), "BEGIN:VCARD\r\nVERSION:3.0\r\nN:Dawson;Frank;;;\r\nFN:Frank Dawson\r\nADR:;;;;;;U.S.A.\r\nEND:VCARD\r\n");
}

#[test]
fn payments_are_the_printed_ones() {
    let payment = Payment { name: "Red Cross of Belgium", iban: "BE72000000001616", cents: 100, bic: "BPOTBEB1", purpose: "CHAR", message: "Urgency fund", ..Payment::default() };
    let text = Payment { information: "Sample EPC QR code", ..payment }.text().unwrap();
    assert_eq!(text, "BCD\n001\n1\nSCT\nBPOTBEB1\nRed Cross of Belgium\nBE72000000001616\nEUR1.00\nCHAR\n\nUrgency fund\nSample EPC QR code");
    assert_eq!(Payment { cents: u64::MAX, ..payment }.text(), Err(ContentError::Refused("cents", Cause::Range)));
    let creditor = Party { name: "Robert Schneider AG", street: "Rue du Lac", number: "1268", code: "2501", city: "Biel", country: "CH" };
    let bill = Bill {
        iban: "CH5800791123000889012",
        creditor,
        cents: None,
        currency: Currency::Euro,
        debtor: Party::default(),
        reference: "RF18539007547034",
        message: "",
    };
    assert!(bill.text().unwrap().ends_with("\n\n\nEUR\n\n\n\n\n\n\n\nSCOR\nRF18539007547034\n\nEPD"));
    assert_eq!(Bill { debtor: Party { city: "", ..creditor }, ..bill }.text(), Err(ContentError::Refused("debtor.city", Cause::Empty)));
}

#[test]
fn passwords_and_events_are_the_printed_ones() {
    let (account, secret) = ("alice@google.com", "JBSWY3DPEHPK3PXP");
    let key = OneTime { factor: Factor::Time(30), issuer: "Example", account, secret, algorithm: Algorithm::Sha1, digits: Digits::Six };
    assert_eq!(key.text().unwrap(), "otpauth://totp/Example:alice@google.com?secret=JBSWY3DPEHPK3PXP&issuer=Example");
    assert_eq!(OneTime { factor: Factor::Time(0), ..key }.text(), Err(ContentError::Refused("period", Cause::Range)));
    let end = Moment { day: Day { day: 15, ..MOMENT.day }, hour: 4, ..MOMENT };
    let event = Event { uid: "AF23B2@example.com", stamp: Some(MOMENT), span: Span::Times(MOMENT, end), summary: "Bastille Day Party", location: "", description: "" };
    assert!(event.text().unwrap().contains("\r\nDTSTART:19970714T170000Z\r\nDTEND:19970715T040000Z\r\nSUMMARY:Bastille Day Party\r\n"));
    assert!(Event { span: Span::Days(MOMENT.day, end.day), ..event }.text().unwrap().contains("\r\nDTEND;VALUE=DATE:19970715\r\n"));
    assert_eq!(Event { stamp: Some(Moment { hour: 24, ..MOMENT }), ..event }.text(), Err(ContentError::Refused("stamp", Cause::Range)));
}
