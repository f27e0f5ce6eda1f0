//! Answers: a record's fields in their order, `key=value` with a space between.

use crate::records::Record;
use tpdu::{
    SMSAddress, SmsDeliver, SmsDeliverReport, SmsStatusReport, SmsSubmit, SmsSubmitReport,
    ValidityPeriod,
};

/// Octets as lower-case hexadecimal digits.
pub fn hex(octets: &[u8]) -> String {
    const DIGITS: &[u8; 16] = b"0123456789abcdef";
    let mut shown = String::with_capacity(octets.len() * 2);
    for octet in octets {
        shown.push(char::from(DIGITS[usize::from(octet >> 4)]));
        shown.push(char::from(DIGITS[usize::from(octet & 0x0F)]));
    }
    shown
}

/// The fields of a record; `read` is the number of octets that SUBMIT's reader read.
pub fn fields(record: &Record, read: u64) -> String {
    let mut line = Line(String::with_capacity(256));
    match record {
        Record::Deliver(record) => deliver(record, &mut line),
        Record::Submit(record) => submit(record, read, &mut line),
        Record::SubmitReport(record) => submit_report(record, &mut line),
        Record::DeliverReport(record) => deliver_report(record, &mut line),
        Record::StatusReport(record) => status_report(record, &mut line),
    }
    line.0
}

/// An address of the relay layer, or none, and the number of octets that were read.
pub fn relay_address(address: Option<&SMSAddress>, read: usize) -> String {
    let mut line = Line(String::with_capacity(64));
    line.number("read", read as u64);
    match address {
        Some(address) => line.address(address),
        None => line.no_address(),
    }
    line.0
}

/// A line of fields.
struct Line(String);

impl Line {
    fn word(&mut self, key: &str, value: &str) {
        if !self.0.is_empty() {
            self.0.push(' ');
        }
        self.0.push_str(key);
        self.0.push('=');
        self.0.push_str(value);
    }

    fn number(&mut self, key: &str, value: u64) {
        self.word(key, &value.to_string());
    }

    fn flag(&mut self, key: &str, value: bool) {
        self.number(key, u64::from(value));
    }

    fn optional_number(&mut self, key: &str, value: Option<u8>) {
        match value {
            Some(value) => self.number(key, u64::from(value)),
            None => self.word(key, "-"),
        }
    }

    fn octets(&mut self, key: &str, value: &[u8]) {
        self.word(key, &hex(value));
    }

    fn octet(&mut self, key: &str, value: u8) {
        self.octets(key, &[value]);
    }

    fn optional_octet(&mut self, key: &str, value: Option<u8>) {
        match value {
            Some(value) => self.octet(key, value),
            None => self.word(key, "-"),
        }
    }

    fn address(&mut self, address: &SMSAddress) {
        self.number("ton", u64::from(address.ton));
        self.number("npi", u64::from(address.npi));
        self.octets("address", address.address.as_bytes());
    }

    fn no_address(&mut self) {
        for key in ["ton", "npi", "address"] {
            self.word(key, "-");
        }
    }
}

fn deliver(record: &SmsDeliver, line: &mut Line) {
    line.flag("rp", record.tp_rp);
    line.flag("udhi", record.tp_udhi);
    line.flag("sri", record.tp_sri);
    line.flag("lp", record.tp_lp);
    line.flag("mms", record.tp_mms);
    line.number("mti", u64::from(record.tp_mti));
    line.address(&record.tp_originating_address);
    line.octet("pid", record.tp_pid);
    line.octet("dcs", record.tp_dcs);
    line.word("scts", &record.tp_service_centre_timestamp);
    line.number("udl", u64::from(record.tp_user_data_length));
    line.octets("ud", &record.tp_user_data);
}

fn submit(record: &SmsSubmit, read: u64, line: &mut Line) {
    line.number("read", read);
    line.flag("rp", record.tp_rp);
    line.flag("udhi", record.tp_udhi);
    line.flag("srr", record.tp_srr);
    line.number("vpf", u64::from(record.tp_vpf));
    line.flag("rd", record.tp_rd);
    line.number("mti", u64::from(record.tp_mti));
    line.octet("mr", record.tp_mr);
    match &record.tp_destination_address {
        Some(address) => line.address(address),
        None => line.no_address(),
    }
    line.octet("pid", record.tp_pid);
    line.octet("dcs", record.tp_dcs);
    line.word("vp", &validity_period(record.tp_validity_period.as_ref()));
    line.number("udl", u64::from(record.tp_user_data_length));
    line.octets("ud", &record.tp_user_data_raw);
    match &record.tp_user_data_header {
        // length octet and value octets
        Some(header) => line.octets("header", &header.encode()),
        None => line.word("header", "-"),
    }
    line.octets("text", &record.tp_user_data);
}

fn validity_period(period: Option<&ValidityPeriod>) -> String {
    match period {
        None => "-".to_string(),
        Some(ValidityPeriod::Relative(octet)) => format!("relative:{octet:02x}"),
        Some(ValidityPeriod::Absolute(digits)) => format!("absolute:{digits}"),
        Some(ValidityPeriod::Enhanced(octets)) => format!("enhanced:{}", hex(octets)),
    }
}

fn submit_report(record: &SmsSubmitReport, line: &mut Line) {
    line.number("udhi", u64::from(record.tp_udhi));
    line.optional_octet("fcs", record.tp_failure_cause);
    line.octet("pi", record.tp_parameter_indicator);
    line.word("scts", &record.tp_service_centre_timestamp);
    line.optional_octet("pid", record.tp_pid);
    line.optional_octet("dcs", record.tp_dcs);
    line.optional_number("udl", record.tp_user_data_length);
    line.octets("ud", &record.tp_user_data);
}

fn deliver_report(record: &SmsDeliverReport, line: &mut Line) {
    line.flag("udhi", record.tp_udhi);
    line.optional_octet("fcs", record.tp_failure_cause);
    line.octet("pi", record.tp_parameter_indicator);
    line.optional_octet("pid", record.tp_pid);
    line.optional_octet("dcs", record.tp_dcs);
    line.optional_number("udl", record.tp_user_data_length);
    line.octets("ud", &record.tp_user_data);
}

fn status_report(record: &SmsStatusReport, line: &mut Line) {
    line.flag("udhi", record.tp_udhi);
    line.flag("srq", record.tp_srq);
    line.flag("lp", record.tp_lp);
    line.flag("mms", record.tp_mms);
    line.octet("mr", record.tp_mr);
    line.address(&record.tp_recipient_address);
    line.word("scts", &record.tp_service_centre_timestamp);
    line.word("dt", &record.tp_discharge_time);
    line.octet("st", record.tp_status);
    line.optional_octet("pi", record.tp_parameter_indicator);
    line.optional_octet("pid", record.tp_pid);
    line.optional_octet("dcs", record.tp_dcs);
    line.optional_number("udl", record.tp_user_data_length);
    line.octets("ud", &record.tp_user_data);
}
