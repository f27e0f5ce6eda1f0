//! Records: read from octets by kind, made from `key=value` fields, written by the library.

use crate::fields::{hex_octet, hex_octets, small, text};
use crate::{bad, Failure};
use std::io::Cursor;
use tpdu::{
    Error, SMSAddress, SmsDeliver, SmsDeliverReport, SmsStatusReport, SmsSubmit, SmsSubmitReport,
    ValidityPeriod,
};

pub enum Record {
    Deliver(SmsDeliver),
    Submit(SmsSubmit),
    SubmitReport(SmsSubmitReport),
    DeliverReport(SmsDeliverReport),
    StatusReport(SmsStatusReport),
}

impl Record {
    pub fn encode(&self) -> Result<Vec<u8>, Error> {
        match self {
            Record::Deliver(record) => record.encode(),
            Record::Submit(record) => record.encode(),
            Record::SubmitReport(record) => record.encode(),
            Record::DeliverReport(record) => record.encode(),
            Record::StatusReport(record) => record.encode(),
        }
    }
}

/// The seven readers.
#[derive(Clone, Copy)]
pub enum Kind {
    Deliver,
    Submit,
    SubmitReportAck,
    SubmitReportError,
    DeliverReportAck,
    DeliverReportError,
    StatusReport,
}

impl Kind {
    /// The reader of a request's name.
    pub fn read_by(name: &[u8]) -> Option<Kind> {
        Some(match name {
            b"deliver" => Kind::Deliver,
            b"submit" => Kind::Submit,
            b"submit-report-ack" => Kind::SubmitReportAck,
            b"submit-report-error" => Kind::SubmitReportError,
            b"deliver-report-ack" => Kind::DeliverReportAck,
            b"deliver-report-error" => Kind::DeliverReportError,
            b"status-report" => Kind::StatusReport,
            _ => return None,
        })
    }

    /// The record read, and the place of SUBMIT's reader behind it (0 for the others, which
    /// don't tell theirs).
    pub fn read(self, data: &[u8]) -> Result<(Record, u64), Error> {
        let record = match self {
            Kind::Submit => {
                let mut cursor = Cursor::new(data);
                let record = tpdu::decode_sms_submit_tpdu(&mut cursor)?;
                return Ok((Record::Submit(record), cursor.position()));
            }
            Kind::Deliver => Record::Deliver(SmsDeliver::decode(data)?),
            Kind::SubmitReportAck => {
                Record::SubmitReport(SmsSubmitReport::decode_for_rp_ack(data)?)
            }
            Kind::SubmitReportError => {
                Record::SubmitReport(SmsSubmitReport::decode_for_rp_error(data)?)
            }
            Kind::DeliverReportAck => {
                Record::DeliverReport(SmsDeliverReport::decode_for_rp_ack(data)?)
            }
            Kind::DeliverReportError => {
                Record::DeliverReport(SmsDeliverReport::decode_for_rp_error(data)?)
            }
            Kind::StatusReport => Record::StatusReport(SmsStatusReport::decode(data)?),
        };
        Ok((record, 0))
    }
}

/// The keys that a kind's `enc-` request takes, all of them, and how a record is made of them.
pub struct Keys {
    names: &'static [&'static str],
    make: fn(&Given) -> Result<Record, Failure>,
}

/// The keys by the name behind `enc-`.
pub fn keys(kind: &[u8]) -> Option<Keys> {
    let (names, make): (&[&str], fn(&Given) -> _) = match kind {
        b"deliver" => (
            &[
                "rp", "udhi", "sri", "lp", "mms", "mti", "ton", "npi", "address", "pid", "dcs",
                "scts", "udl", "ud",
            ],
            deliver,
        ),
        b"submit" => (
            &[
                "rp", "udhi", "srr", "vpf", "rd", "mti", "mr", "ton", "npi", "address", "pid",
                "dcs", "vp", "udl", "ud",
            ],
            submit,
        ),
        b"submit-report" => (
            &[
                "udhi", "fcs", "pi", "scts", "pid", "dcs", "udl", "ud", "outcome",
            ],
            submit_report,
        ),
        b"deliver-report" => (
            &["udhi", "fcs", "pi", "pid", "dcs", "udl", "ud", "outcome"],
            deliver_report,
        ),
        b"status-report" => (
            &[
                "udhi", "srq", "lp", "mms", "mr", "ton", "npi", "address", "scts", "dt", "st",
                "pi", "pid", "dcs", "udl", "ud",
            ],
            status_report,
        ),
        _ => return None,
    };
    Some(Keys { names, make })
}

impl Keys {
    /// The record of the fields given, if every key is there once and has a value of its form.
    pub fn record(&self, fields: &[&[u8]]) -> Result<Record, Failure> {
        if fields.len() != self.names.len() {
            return Err(bad("number of fields"));
        }
        let mut given = Given(Vec::with_capacity(fields.len()));
        for field in fields {
            let (name, value) = self.split(field).ok_or_else(|| bad("unknown key"))?;
            if given.has(name) {
                return Err(bad("key given twice"));
            }
            given.0.push((name, value));
        }
        (self.make)(&given)
    }

    /// Key and value of a field, if the key is one of the kind.
    fn split<'a>(&self, field: &'a [u8]) -> Option<(&'static str, &'a [u8])> {
        let equals = field.iter().position(|&o| o == b'=')?;
        let name = self.names.iter().find(|n| n.as_bytes() == &field[..equals]);
        Some((name?, &field[equals + 1..]))
    }
}

/// The values that a request gives, each under its key.
pub struct Given<'a>(Vec<(&'static str, &'a [u8])>);

impl Given<'_> {
    fn has(&self, key: &str) -> bool {
        self.0.iter().any(|(name, _)| *name == key)
    }

    /// The value of a key; there is one for every key of the kind.
    fn raw(&self, key: &str) -> &[u8] {
        let found = self.0.iter().find(|(name, _)| *name == key);
        found.map_or(b"", |(_, value)| value)
    }

    /// The value in the form that `form` takes.
    fn as_form<T>(&self, key: &str, form: fn(&[u8]) -> Option<T>) -> Result<T, Failure> {
        form(self.raw(key)).ok_or_else(|| bad(&format!("value of {key}")))
    }

    fn flag(&self, key: &str) -> Result<bool, Failure> {
        self.as_form(key, |value| match value {
            b"0" => Some(false),
            b"1" => Some(true),
            _ => None,
        })
    }

    fn number(&self, key: &str) -> Result<u8, Failure> {
        self.as_form(key, small)
    }

    fn optional_number(&self, key: &str) -> Result<Option<u8>, Failure> {
        self.as_form(key, |value| optional(value, small))
    }

    fn octet(&self, key: &str) -> Result<u8, Failure> {
        self.as_form(key, hex_octet)
    }

    fn optional_octet(&self, key: &str) -> Result<Option<u8>, Failure> {
        self.as_form(key, |value| optional(value, hex_octet))
    }

    fn octets(&self, key: &str) -> Result<Vec<u8>, Failure> {
        self.as_form(key, hex_octets)
    }

    /// Octets as the text of an address.
    fn text(&self, key: &str) -> Result<String, Failure> {
        Ok(text(&self.octets(key)?))
    }

    /// The outcome of a report: the Rust's record has none.
    fn outcome(&self, key: &str) -> Result<(), Failure> {
        self.as_form(key, |value| {
            matches!(value, b"ack" | b"error").then_some(())
        })
    }

    fn time(&self, key: &str) -> Result<String, Failure> {
        self.as_form(key, time)
    }

    fn validity_period(&self) -> Result<Option<ValidityPeriod>, Failure> {
        self.as_form("vp", |value| optional(value, validity_period))
    }

    /// `ton=- npi=- address=-`, all three.
    fn nowhere(&self) -> bool {
        ["ton", "npi", "address"]
            .iter()
            .all(|k| self.raw(k) == b"-")
    }
}

/// `-` for an absent part, else the part's form.
fn optional<T>(value: &[u8], form: fn(&[u8]) -> Option<T>) -> Option<Option<T>> {
    match value {
        b"-" => Some(None),
        _ => form(value).map(Some),
    }
}

/// A time as it stands, or as `x:` and octets.
fn time(value: &[u8]) -> Option<String> {
    match value.strip_prefix(b"x:") {
        Some(digits) => hex_octets(digits).map(|octets| text(&octets)),
        None => Some(text(value)),
    }
}

fn validity_period(value: &[u8]) -> Option<ValidityPeriod> {
    if let Some(digits) = value.strip_prefix(b"relative:") {
        return hex_octet(digits).map(ValidityPeriod::Relative);
    }
    if let Some(digits) = value.strip_prefix(b"absolute:") {
        return time(digits).map(ValidityPeriod::Absolute);
    }
    let octets = hex_octets(value.strip_prefix(b"enhanced:")?)?;
    Some(ValidityPeriod::Enhanced(octets.try_into().ok()?))
}

// Of several values that aren't of their form the first in the order of the table of keys is
// told. So each function below takes the values in that order:
//   rp udhi sri lp mms srr rd srq, mti vpf ton npi udl, mr pid dcs fcs pi st, address, scts dt,
//   vp, ud, outcome

fn deliver(given: &Given) -> Result<Record, Failure> {
    let tp_rp = given.flag("rp")?;
    let tp_udhi = given.flag("udhi")?;
    let tp_sri = given.flag("sri")?;
    let tp_lp = given.flag("lp")?;
    let tp_mms = given.flag("mms")?;
    let tp_mti = given.number("mti")?;
    let ton = given.number("ton")?;
    let npi = given.number("npi")?;
    let tp_user_data_length = given.number("udl")?;
    let tp_pid = given.octet("pid")?;
    let tp_dcs = given.octet("dcs")?;
    let address = given.text("address")?;
    let tp_service_centre_timestamp = given.time("scts")?;
    let tp_user_data = given.octets("ud")?;
    Ok(Record::Deliver(SmsDeliver {
        tp_rp,
        tp_udhi,
        tp_sri,
        tp_lp,
        tp_mms,
        tp_mti,
        tp_originating_address: SMSAddress { ton, npi, address },
        tp_pid,
        tp_dcs,
        tp_service_centre_timestamp,
        tp_user_data_length,
        tp_user_data,
    }))
}

fn submit(given: &Given) -> Result<Record, Failure> {
    let nowhere = given.nowhere();
    let tp_rp = given.flag("rp")?;
    let tp_udhi = given.flag("udhi")?;
    let tp_srr = given.flag("srr")?;
    let tp_rd = given.flag("rd")?;
    let tp_mti = given.number("mti")?;
    let tp_vpf = given.number("vpf")?;
    let (ton, npi) = match nowhere {
        true => (0, 0),
        false => (given.number("ton")?, given.number("npi")?),
    };
    let tp_user_data_length = given.number("udl")?;
    let tp_mr = given.octet("mr")?;
    let tp_pid = given.octet("pid")?;
    let tp_dcs = given.octet("dcs")?;
    let address = given.text("address")?;
    let tp_validity_period = given.validity_period()?;
    let tp_user_data_raw = given.octets("ud")?;
    Ok(Record::Submit(SmsSubmit {
        tp_rp,
        tp_udhi,
        tp_srr,
        tp_mti,
        tp_rd,
        tp_vpf,
        tp_mr,
        tp_destination_address: (!nowhere).then_some(SMSAddress { ton, npi, address }),
        tp_pid,
        tp_dcs,
        tp_validity_period,
        tp_user_data_length,
        tp_user_data_raw,
        // The writer looks at the raw data only.
        tp_user_data_header: None,
        tp_user_data: Vec::new(),
    }))
}

fn submit_report(given: &Given) -> Result<Record, Failure> {
    let tp_udhi = given.number("udhi")?;
    let tp_user_data_length = given.optional_number("udl")?;
    let tp_pid = given.optional_octet("pid")?;
    let tp_dcs = given.optional_octet("dcs")?;
    let tp_failure_cause = given.optional_octet("fcs")?;
    let tp_parameter_indicator = given.octet("pi")?;
    let tp_service_centre_timestamp = given.time("scts")?;
    let tp_user_data = given.octets("ud")?;
    given.outcome("outcome")?;
    Ok(Record::SubmitReport(SmsSubmitReport {
        tp_udhi,
        tp_failure_cause,
        tp_parameter_indicator,
        tp_service_centre_timestamp,
        tp_pid,
        tp_dcs,
        tp_user_data_length,
        tp_user_data,
    }))
}

fn deliver_report(given: &Given) -> Result<Record, Failure> {
    let tp_udhi = given.flag("udhi")?;
    let tp_user_data_length = given.optional_number("udl")?;
    let tp_pid = given.optional_octet("pid")?;
    let tp_dcs = given.optional_octet("dcs")?;
    let tp_failure_cause = given.optional_octet("fcs")?;
    let tp_parameter_indicator = given.octet("pi")?;
    let tp_user_data = given.octets("ud")?;
    given.outcome("outcome")?;
    Ok(Record::DeliverReport(SmsDeliverReport {
        tp_udhi,
        tp_failure_cause,
        tp_parameter_indicator,
        tp_pid,
        tp_dcs,
        tp_user_data_length,
        tp_user_data,
    }))
}

fn status_report(given: &Given) -> Result<Record, Failure> {
    let tp_udhi = given.flag("udhi")?;
    let tp_lp = given.flag("lp")?;
    let tp_mms = given.flag("mms")?;
    let tp_srq = given.flag("srq")?;
    let ton = given.number("ton")?;
    let npi = given.number("npi")?;
    let tp_user_data_length = given.optional_number("udl")?;
    let tp_mr = given.octet("mr")?;
    let tp_pid = given.optional_octet("pid")?;
    let tp_dcs = given.optional_octet("dcs")?;
    let tp_parameter_indicator = given.optional_octet("pi")?;
    let tp_status = given.octet("st")?;
    let address = given.text("address")?;
    let tp_service_centre_timestamp = given.time("scts")?;
    let tp_discharge_time = given.time("dt")?;
    let tp_user_data = given.octets("ud")?;
    Ok(Record::StatusReport(SmsStatusReport {
        tp_udhi,
        tp_srq,
        tp_lp,
        tp_mms,
        tp_mr,
        tp_recipient_address: SMSAddress { ton, npi, address },
        tp_service_centre_timestamp,
        tp_discharge_time,
        tp_status,
        tp_parameter_indicator,
        tp_pid,
        tp_dcs,
        tp_user_data_length,
        tp_user_data,
    }))
}
