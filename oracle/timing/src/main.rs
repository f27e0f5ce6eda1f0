//! Times the Rust, the port and plain loops in C in one process, on the same inputs, and prints two
//! tables: what the Rust has, and what it hasn't. Each number is the least of many short runs
//! (least.rs). Inputs lie in memory that the compiler can't see through. What the port and the C
//! make goes to memory of this program, which reads it after the runs and holds it against what the
//! Rust makes; the Rust's results are made whole, and dropped within the time. What the port writes
//! it writes from arrays of this program, of which it makes its record each time; the Rust's record
//! is made once.

mod foreign;
mod least;

use foreign::*;
use least::{least, side, Side};
use std::hint::black_box;
use std::io::Cursor;
use tpdu::{
    decode_sms_submit_tpdu, pack_gsm7, pack_gsm7_with_header, timestamp_digits, unpack_gsm7, Error,
    SMSAddress, SmsDeliver, SmsDeliverReport, SmsStatusReport, SmsSubmit, SmsSubmitReport,
    ValidityPeriod,
};

/// What a function of the port answers from here on is a refusal.
const REFUSED: usize = 256;

/// Memory that results go to, and the number that was answered.
struct Given {
    number: usize,
    octets: Vec<u8>,
}

impl Given {
    fn new() -> Self {
        Given {
            number: 0,
            octets: vec![0xa5; 4096],
        }
    }

    /// The first octets, as many as the number says.
    fn counted(&self) -> &[u8] {
        &self.octets[..self.number]
    }
}

/// A side that gives its results to memory.
fn into<'a>(given: &'a mut Given, call: impl Fn(*mut u8) -> usize + 'a) -> Side<'a> {
    side(move || given.number = call(black_box(given.octets.as_mut_ptr())))
}

/// A side whose result is made whole.
fn made<'a, R>(call: impl Fn() -> R + 'a) -> Side<'a> {
    side(move || {
        black_box(&call());
    })
}

fn nanoseconds(time: f64) -> String {
    if time < 9.95 {
        format!("{time:.1}")
    } else {
        format!("{time:.0}")
    }
}

/// A row of the first table.
fn row(work: &str, rust: Side, port: Side, plain: Option<Side>) {
    let mut sides: Vec<Side> = [rust, port].into_iter().chain(plain).collect();
    let times = least(&mut sides);
    let plain = times
        .get(2)
        .map_or(" ".to_string(), |&time| format!(" {} ", nanoseconds(time)));
    println!(
        "| {work} | {} | {} |{plain}| {:.1} |",
        nanoseconds(times[0]),
        nanoseconds(times[1]),
        times[0] / times[1]
    );
}

/// A row of the second table.
fn row_without(work: &str, port: Side, plain: Option<Side>) {
    let mut sides: Vec<Side> = [port].into_iter().chain(plain).collect();
    let times = least(&mut sides);
    let plain = times.get(1).map_or(" | ".to_string(), |&time| {
        format!(" {} | {:.2} ", nanoseconds(time), time / times[0])
    });
    println!("| {work} | {} |{plain}|", nanoseconds(times[0]));
}

/// Octets at the front of an array of zeros.
fn array<const N: usize>(octets: &[u8]) -> [u8; N] {
    let mut array = [0; N];
    array[..octets.len()].copy_from_slice(octets);
    array
}

/// Where the arrays of a message that the port reads go to. Its user data, as text where the port
/// gives text, are at the start.
const ADDRESS_AT: usize = 1024;
const TIME_AT: usize = 1536;
const LATER_AT: usize = 1600;
const RAW_AT: usize = 2048;
const HEADER_AT: usize = 2560;

/// Octets that have to be at a place.
type Held<'a> = (usize, &'a [u8]);

/// A message read, and written again; `held` says what the port's reader has to give.
fn time_message<R>(
    name: &str,
    data: &[u8],
    read: impl Fn(&[u8]) -> Result<R, Error>,
    held: impl Fn(&R) -> Vec<Held>,
    port_read: impl Fn(&[u8], *mut u8) -> usize,
    write: impl Fn(&R) -> Result<Vec<u8>, Error>,
    port_write: impl Fn(&R, *mut u8) -> usize,
    (plain_read, plain_write): (PlainRead, PlainWrite),
) {
    let mut given = Given::new();
    let mut plain = Given::new();
    let mut message: Box<Message> = Box::new(unsafe { std::mem::zeroed() });
    row(
        &format!("read {name}"),
        made(|| read(black_box(data)).unwrap()),
        into(&mut given, |out| port_read(black_box(data), out)),
        Some(side(|| unsafe {
            plain_read(black_box(data.as_ptr()), black_box(&mut *message))
        })),
    );
    let record = read(data).unwrap();
    assert!(given.number < REFUSED, "{name}: the port refuses it");
    for (at, octets) in held(&record) {
        assert_eq!(
            &given.octets[at..at + octets.len()],
            octets,
            "{name}: what is read differs"
        );
        assert!(message.holds(octets), "{name}: what the C reads differs");
    }
    row(
        &format!("write {name}"),
        made(|| write(black_box(&record)).unwrap()),
        into(&mut given, |out| port_write(black_box(&record), out)),
        Some(into(&mut plain, |out| unsafe {
            plain_write(black_box(&*message), out)
        })),
    );
    assert_eq!(
        given.counted(),
        data,
        "{name}: what the port writes differs"
    );
    assert_eq!(
        write(&record).unwrap(),
        data,
        "{name}: what the Rust writes differs"
    );
}

fn port_read_deliver(data: &[u8], out: *mut u8) -> usize {
    unsafe {
        tpdu_read_deliver(
            data.as_ptr(),
            data.len(),
            out.add(ADDRESS_AT),
            out.add(TIME_AT),
            out,
        )
    }
}

fn port_read_submit(data: &[u8], out: *mut u8) -> usize {
    unsafe {
        tpdu_read_submit(
            data.as_ptr(),
            data.len(),
            out.add(ADDRESS_AT),
            out.add(RAW_AT),
            out.add(HEADER_AT),
            out,
        )
    }
}

fn port_read_status_report(data: &[u8], out: *mut u8) -> usize {
    unsafe {
        tpdu_read_status_report(
            data.as_ptr(),
            data.len(),
            out.add(ADDRESS_AT),
            out.add(TIME_AT),
            out.add(LATER_AT),
            out,
        )
    }
}

fn read_submit(data: &[u8]) -> Result<SmsSubmit, Error> {
    decode_sms_submit_tpdu(&mut Cursor::new(data))
}

/// The arrays that the port's record of a message holds.
struct Arrays {
    address: [u8; 290],
    time: [u8; 14],
    later: [u8; 14],
    user_data: [u8; 255],
    header: [u8; 255],
    text: [u8; 510],
}

impl Arrays {
    fn new(address: &str, times: [&str; 2], user_data: &[u8]) -> Box<Self> {
        black_box(Box::new(Arrays {
            address: array(address.as_bytes()),
            time: array(times[0].as_bytes()),
            later: array(times[1].as_bytes()),
            user_data: array(user_data),
            header: [0; 255],
            text: [0; 510],
        }))
    }
}

fn deliver_arrays(m: &SmsDeliver) -> Box<Arrays> {
    let sent = &m.tp_service_centre_timestamp;
    Arrays::new(
        &m.tp_originating_address.address,
        [sent, ""],
        &m.tp_user_data,
    )
}

fn write_deliver(m: &SmsDeliver, arrays: &Arrays, out: *mut u8) -> usize {
    let from = &m.tp_originating_address;
    unsafe {
        tpdu_write_deliver(
            m.tp_rp,
            m.tp_udhi,
            m.tp_sri,
            m.tp_lp,
            m.tp_mms,
            m.tp_mti,
            from.ton,
            from.npi,
            arrays.address.as_ptr(),
            from.address.len(),
            m.tp_pid,
            m.tp_dcs,
            arrays.time.as_ptr(),
            m.tp_user_data_length,
            arrays.user_data.as_ptr(),
            m.tp_user_data.len(),
            out,
            255,
        )
    }
}

fn write_submit(m: &SmsSubmit, arrays: &Arrays, out: *mut u8) -> usize {
    let to = m.tp_destination_address.as_ref().unwrap();
    let Some(ValidityPeriod::Relative(period)) = m.tp_validity_period else {
        unreachable!("a relative validity period");
    };
    let header = m.tp_user_data_header.as_ref();
    unsafe {
        tpdu_write_submit(
            m.tp_rp,
            m.tp_udhi,
            m.tp_srr,
            m.tp_mti,
            m.tp_rd,
            m.tp_vpf,
            m.tp_mr,
            to.ton,
            to.npi,
            arrays.address.as_ptr(),
            to.address.len(),
            m.tp_pid,
            m.tp_dcs,
            period,
            m.tp_user_data_length,
            arrays.user_data.as_ptr(),
            m.tp_user_data_raw.len(),
            header.is_some(),
            arrays.header.as_ptr(),
            header.map_or(0, |h| 1 + h.user_data_header_value.len()),
            arrays.text.as_ptr(),
            m.tp_user_data.len(),
            out,
            255,
        )
    }
}

fn write_status_report(m: &SmsStatusReport, arrays: &Arrays, out: *mut u8) -> usize {
    let to = &m.tp_recipient_address;
    unsafe {
        tpdu_write_status_report(
            m.tp_udhi,
            m.tp_srq,
            m.tp_lp,
            m.tp_mms,
            m.tp_mr,
            to.ton,
            to.npi,
            arrays.address.as_ptr(),
            to.address.len(),
            arrays.time.as_ptr(),
            arrays.later.as_ptr(),
            m.tp_status,
            arrays.user_data.as_ptr(),
            m.tp_user_data.len(),
            out,
            255,
        )
    }
}

fn write_submit_report(m: &SmsSubmitReport, arrays: &Arrays, out: *mut u8) -> usize {
    unsafe {
        tpdu_write_submit_report(
            m.tp_udhi,
            m.tp_parameter_indicator,
            arrays.time.as_ptr(),
            m.tp_pid.unwrap(),
            m.tp_dcs.unwrap(),
            m.tp_user_data_length.unwrap(),
            arrays.user_data.as_ptr(),
            m.tp_user_data.len(),
            out,
            255,
        )
    }
}

fn write_deliver_report(m: &SmsDeliverReport, arrays: &Arrays, out: *mut u8) -> usize {
    unsafe {
        tpdu_write_deliver_report(
            m.tp_udhi,
            m.tp_parameter_indicator,
            m.tp_pid.unwrap(),
            m.tp_dcs.unwrap(),
            m.tp_user_data_length.unwrap(),
            arrays.user_data.as_ptr(),
            m.tp_user_data.len(),
            out,
            255,
        )
    }
}

const ADDRESS: [u8; 8] = [0x0b, 0x91, 0x13, 0x26, 0x54, 0x87, 0x09, 0xf1];
const DIGITS: &str = "31624578901";
const TIME: [u8; 7] = [0x42, 0x20, 0x51, 0x21, 0x03, 0x54, 0x00];
const LATER: [u8; 7] = [0x42, 0x20, 0x51, 0x22, 0x13, 0x54, 0x00];

/// Text with characters of one, two and three octets, some of them of the extension table.
const MIXED: &str = "Größe: 4 um, 80 € [Rolle 3]. Perché? Cosi è gia {~} detruit; ¿que? Ñandu Åse Øre Ærø. Zwölf Öfen. ";

/// ASCII text of this length.
fn words(length: usize) -> String {
    "Damp board at reel 3, call the second lead. ".repeat(12)[..length].to_string()
}

fn time_deliver(name: &str, data: &[u8]) {
    let arrays = deliver_arrays(&SmsDeliver::decode(data).unwrap());
    time_message(
        name,
        data,
        SmsDeliver::decode,
        |m| {
            vec![
                (0, &m.tp_user_data[..]),
                (ADDRESS_AT, m.tp_originating_address.address.as_bytes()),
                (TIME_AT, m.tp_service_centre_timestamp.as_bytes()),
            ]
        },
        port_read_deliver,
        SmsDeliver::encode,
        |m, out| write_deliver(m, &arrays, out),
        (plain_read_deliver, plain_write_deliver),
    );
}

fn time_submit(name: &str, data: &[u8]) {
    let m = read_submit(data).unwrap();
    let to = &m.tp_destination_address.as_ref().unwrap().address;
    let mut arrays = Arrays::new(to, ["", ""], &m.tp_user_data_raw);
    arrays.text = array(&m.tp_user_data);
    if let Some(header) = &m.tp_user_data_header {
        arrays.header = array(&header.encode());
    }
    let arrays = black_box(arrays);
    time_message(
        name,
        data,
        read_submit,
        |m| {
            vec![
                (0, &m.tp_user_data[..]),
                (
                    ADDRESS_AT,
                    m.tp_destination_address
                        .as_ref()
                        .unwrap()
                        .address
                        .as_bytes(),
                ),
                (RAW_AT, &m.tp_user_data_raw),
            ]
        },
        port_read_submit,
        SmsSubmit::encode,
        |m, out| write_submit(m, &arrays, out),
        (plain_read_submit, plain_write_submit),
    );
}

fn time_status_report(data: &[u8]) {
    let m = SmsStatusReport::decode(data).unwrap();
    let times = [
        m.tp_service_centre_timestamp.as_str(),
        m.tp_discharge_time.as_str(),
    ];
    let arrays = Arrays::new(&m.tp_recipient_address.address, times, &m.tp_user_data);
    time_message(
        "STATUS-REPORT",
        data,
        SmsStatusReport::decode,
        |m| {
            vec![
                (ADDRESS_AT, m.tp_recipient_address.address.as_bytes()),
                (TIME_AT, m.tp_service_centre_timestamp.as_bytes()),
                (LATER_AT, m.tp_discharge_time.as_bytes()),
            ]
        },
        port_read_status_report,
        SmsStatusReport::encode,
        |m, out| write_status_report(m, &arrays, out),
        (plain_read_status_report, plain_write_status_report),
    );
}

/// Both reports in an RP-ACK.
fn time_reports(submit_report: &[u8], deliver_report: &[u8]) {
    let m = SmsSubmitReport::decode_for_rp_ack(submit_report).unwrap();
    let arrays = Arrays::new("", [&m.tp_service_centre_timestamp, ""], &m.tp_user_data);
    time_message(
        "SUBMIT-REPORT, 20 septets",
        submit_report,
        SmsSubmitReport::decode_for_rp_ack,
        |m| {
            vec![
                (0, &m.tp_user_data[..]),
                (TIME_AT, m.tp_service_centre_timestamp.as_bytes()),
            ]
        },
        |data, out| unsafe {
            tpdu_read_submit_report(data.as_ptr(), data.len(), out.add(TIME_AT), out)
        },
        SmsSubmitReport::encode,
        |m, out| write_submit_report(m, &arrays, out),
        (plain_read_submit_report, plain_write_submit_report),
    );
    let m = SmsDeliverReport::decode_for_rp_ack(deliver_report).unwrap();
    let arrays = Arrays::new("", ["", ""], &m.tp_user_data);
    time_message(
        "DELIVER-REPORT, 20 septets",
        deliver_report,
        SmsDeliverReport::decode_for_rp_ack,
        |m| vec![(0, &m.tp_user_data[..])],
        |data, out| unsafe { tpdu_read_deliver_report(data.as_ptr(), data.len(), out) },
        SmsDeliverReport::encode,
        |m, out| write_deliver_report(m, &arrays, out),
        (plain_read_deliver_report, plain_write_deliver_report),
    );
}

fn time_messages() {
    let (packed, _) = pack_gsm7(&words(160)).unwrap();
    let header = [0x05, 0x00, 0x03, 0x2a, 0x02, 0x01];
    let (with_header, septets) = pack_gsm7_with_header(&header, &words(153)).unwrap();
    let (short, _) = pack_gsm7(&words(20)).unwrap();
    let submit = |first: u8, dcs: u8, udl: u8, user_data: &[u8]| {
        [
            &[first, 7],
            &ADDRESS[..],
            &[0x00, dcs, 0xaa, udl],
            user_data,
        ]
        .concat()
    };
    time_deliver("DELIVER, 140 octets", &deliver(0x04, 0x04, 140, &packed));
    time_submit("SUBMIT, 160 septets", &submit(0x31, 0x00, 160, &packed));
    time_submit(
        "SUBMIT, header and text",
        &submit(0x71, 0x00, septets as u8, &with_header),
    );
    let (mixed, septets) = pack_gsm7(MIXED).unwrap();
    time_submit(
        "SUBMIT, mixed text",
        &submit(0x31, 0x00, septets as u8, &mixed),
    );
    time_submit(
        "SUBMIT, 140 octets of 8-bit data",
        &submit(0x31, 0x04, 140, &packed),
    );
    time_submit("SUBMIT, UDL 0", &submit(0x31, 0x00, 0, &[]));
    time_status_report(&[&[0x06, 7], &ADDRESS[..], &TIME, &LATER, &[0x00]].concat());
    time_reports(
        &[&[0x01, 0x07], &TIME[..], &[0x00, 0x00, 20], &short].concat(),
        &[&[0x00, 0x07, 0x00, 0x00, 20], &short[..]].concat(),
    );
}

fn deliver(first: u8, dcs: u8, udl: u8, user_data: &[u8]) -> Vec<u8> {
    [
        &[first],
        &ADDRESS[..],
        &[0x00, dcs],
        &TIME,
        &[udl],
        user_data,
    ]
    .concat()
}

fn refused(work: &str, rust: Side, port: impl Fn(*mut u8) -> usize) {
    let mut given = Given::new();
    row(work, rust, into(&mut given, port), None);
    assert!(REFUSED < given.number, "{work}: the port doesn't refuse it");
}

/// What both sides refuse.
fn time_refusals() {
    let (packed, _) = pack_gsm7(&words(160)).unwrap();
    let whole = deliver(0x04, 0x04, 140, &packed);
    let cut = &whole[..whole.len() - 1];
    refused(
        "refuse a DELIVER, its last octet missing",
        made(|| SmsDeliver::decode(black_box(cut)).unwrap_err()),
        |out| port_read_deliver(black_box(cut), out),
    );
    let other = &whole[..];
    refused(
        "refuse a DELIVER that is read as a SUBMIT",
        made(|| read_submit(black_box(other)).unwrap_err()),
        |out| port_read_submit(black_box(other), out),
    );
    let mut m = SmsDeliver::decode(other).unwrap();
    m.tp_originating_address.address = "3162457890x".to_string();
    let arrays = deliver_arrays(&m);
    refused(
        "refuse to write a DELIVER, a letter among its digits",
        made(|| black_box(&m).encode().unwrap_err()),
        |out| write_deliver(black_box(&m), &arrays, out),
    );
    let text = &(words(159) + "ê");
    refused(
        "refuse to pack 160 characters, the last in no table",
        made(|| pack_gsm7(black_box(text)).unwrap_err()),
        |out| unsafe { tpdu_pack(black_box(text.as_ptr()), text.len(), out, 255) },
    );
}

fn time_text(name: &str, text: &str) {
    let (packed, septets) = pack_gsm7(text).unwrap();
    let (mut port, mut plain) = (Given::new(), Given::new());
    row(
        &format!("pack {name}"),
        made(|| pack_gsm7(black_box(text)).unwrap()),
        into(&mut port, |out| unsafe {
            tpdu_pack(black_box(text.as_ptr()), text.len(), out, 255)
        }),
        Some(into(&mut plain, |out| unsafe {
            plain_pack(black_box(text.as_ptr()), text.len(), out)
        })),
    );
    assert_eq!(
        port.counted(),
        packed,
        "{name}: what the port packs differs"
    );
    assert_eq!(plain.counted(), packed, "{name}: what the C packs differs");
    row(
        &format!("unpack {name}"),
        made(|| unpack_gsm7(black_box(&packed), black_box(septets)).unwrap()),
        into(&mut port, |out| unsafe {
            tpdu_unpack(black_box(packed.as_ptr()), packed.len(), septets, out)
        }),
        Some(into(&mut plain, |out| unsafe {
            plain_unpack(black_box(packed.as_ptr()), septets, out)
        })),
    );
    assert_eq!(
        port.counted(),
        text.as_bytes(),
        "{name}: what the port unpacks differs"
    );
    assert_eq!(
        plain.counted(),
        text.as_bytes(),
        "{name}: what the C unpacks differs"
    );
}

fn time_address(name: &str, ton: u8, npi: u8, text: &str, with_plain: bool) {
    let address = SMSAddress {
        ton,
        npi,
        address: text.to_string(),
    };
    let held: [u8; 290] = array(text.as_bytes());
    let (mut port, mut plain) = (Given::new(), Given::new());
    row(
        &format!("write an address of {name}"),
        made(|| black_box(&address).encode(false).unwrap()),
        into(&mut port, |out| unsafe {
            tpdu_address(ton, npi, black_box(held.as_ptr()), text.len(), out, 255)
        }),
        with_plain.then(|| {
            into(&mut plain, |out| unsafe {
                plain_address(ton, npi, black_box(held.as_ptr()), text.len(), out)
            })
        }),
    );
    let expected = address.encode(false).unwrap();
    assert_eq!(
        port.counted(),
        expected,
        "{name}: what the port writes differs"
    );
    assert!(
        !with_plain || plain.counted() == expected,
        "{name}: what the C writes differs"
    );
}

fn time_relay_writing() {
    let address = SMSAddress {
        ton: 1,
        npi: 1,
        address: DIGITS.to_string(),
    };
    let held: [u8; 508] = array(DIGITS.as_bytes());
    let (mut port, mut plain) = (Given::new(), Given::new());
    row(
        "write a relay address of 11 digits",
        made(|| black_box(&address).encode(true).unwrap()),
        into(&mut port, |out| unsafe {
            tpdu_write_relay_address(1, 1, black_box(held.as_ptr()), DIGITS.len(), out, 255)
        }),
        Some(into(&mut plain, |out| unsafe {
            plain_write_relay_address(1, 1, black_box(held.as_ptr()), DIGITS.len(), out)
        })),
    );
    let expected = address.encode(true).unwrap();
    assert_eq!(
        port.counted(),
        expected,
        "relay address: what the port writes differs"
    );
    assert_eq!(
        plain.counted(),
        expected,
        "relay address: what the C writes differs"
    );
}

fn time_digits() {
    let values = [24u8, 2, 15, 12, 30, 45];
    let (mut port, mut plain) = (Given::new(), Given::new());
    let known = || (black_box(values), black_box(-5i8));
    let rust = || {
        let ([year, month, day, hour, minute, second], zone) = known();
        timestamp_digits(year, month, day, hour, minute, second, zone).unwrap()
    };
    row(
        "timestamp_digits",
        made(rust),
        into(&mut port, |out| unsafe {
            let ([year, month, day, hour, minute, second], zone) = known();
            tpdu_digits(year, month, day, hour, minute, second, zone, out)
        }),
        Some(into(&mut plain, |out| unsafe {
            let ([year, month, day, hour, minute, second], zone) = known();
            plain_digits(year, month, day, hour, minute, second, zone, out)
        })),
    );
    assert_eq!(
        port.counted(),
        rust().as_bytes(),
        "the port's digits differ"
    );
    assert_eq!(
        plain.counted(),
        rust().as_bytes(),
        "the digits of the C differ"
    );
}

/// A text of three parts, beside each part's text packed by itself.
fn time_parts() {
    let text = &words(459);
    let (mut port, mut plain) = (Given::new(), Given::new());
    row_without(
        "459 septets in 3 parts",
        into(&mut port, |out| unsafe {
            tpdu_concatenate(black_box(text.as_ptr()), 459, 7, out, 423)
        }),
        Some(into(&mut plain, |out| unsafe {
            plain_concatenate(black_box(text.as_ptr()), 459, 7, out)
        })),
    );
    assert_eq!(port.counted(), plain.counted(), "the parts differ");
    row_without(
        "the same 3 texts packed one by one",
        into(&mut port, |out| {
            (0..3)
                .map(|part| unsafe {
                    tpdu_pack(
                        black_box(text[part * 153..].as_ptr()),
                        153,
                        out.add(part * 134),
                        134,
                    )
                })
                .sum()
        }),
        Some(into(&mut plain, |out| {
            (0..3)
                .map(|part| unsafe {
                    plain_pack(
                        black_box(text[part * 153..].as_ptr()),
                        153,
                        out.add(part * 134),
                    )
                })
                .sum()
        })),
    );
    assert_eq!(port.counted(), plain.counted(), "the packed texts differ");
}

fn time_ucs2(name: &str, text: &str) {
    let ucs2: Vec<u8> = text.encode_utf16().flat_map(u16::to_be_bytes).collect();
    let (packed, septets) = pack_gsm7(text).unwrap();
    let (mut port, mut plain) = (Given::new(), Given::new());
    row_without(
        &format!("UCS2 to {name}"),
        into(&mut port, |out| unsafe {
            tpdu_ucs2_to_gsm7(black_box(ucs2.as_ptr()), ucs2.len(), out, 255)
        }),
        Some(into(&mut plain, |out| unsafe {
            plain_ucs2_to_gsm7(black_box(ucs2.as_ptr()), ucs2.len(), out)
        })),
    );
    assert_eq!(port.counted(), packed, "{name}: the port's septets differ");
    assert_eq!(
        plain.counted(),
        packed,
        "{name}: the septets of the C differ"
    );
    row_without(
        &format!("{name} to UCS2"),
        into(&mut port, |out| unsafe {
            tpdu_gsm7_to_ucs2(black_box(packed.as_ptr()), packed.len(), septets, out, 510)
        }),
        Some(into(&mut plain, |out| unsafe {
            plain_gsm7_to_ucs2(black_box(packed.as_ptr()), septets, out)
        })),
    );
    assert_eq!(port.counted(), ucs2, "{name}: the port's UCS2 differs");
    assert_eq!(plain.counted(), ucs2, "{name}: the UCS2 of the C differs");
}

/// A header of these elements, by rising identifier, read and written.
fn time_elements(name: &str, elements: &[(u8, &[u8])]) {
    let identifiers: [u8; 127] = array(&elements.iter().map(|e| e.0).collect::<Vec<u8>>());
    let lengths: [u8; 127] = array(
        &elements
            .iter()
            .map(|e| e.1.len() as u8)
            .collect::<Vec<u8>>(),
    );
    let all: Vec<u8> = elements.iter().flat_map(|e| e.1).copied().collect();
    let values: [u8; 253] = array(&all);
    let mut header = vec![(2 * elements.len() + all.len()) as u8];
    for (identifier, value) in elements {
        header.extend([*identifier, value.len() as u8]);
        header.extend(*value);
    }
    let (mut port, mut plain) = (Given::new(), Given::new());
    row_without(
        &format!("read a header of {name}"),
        into(&mut port, |out| unsafe {
            tpdu_read_elements(
                black_box(header.as_ptr()),
                header.len(),
                out,
                out.add(127),
                out.add(254),
            )
        }),
        Some(into(&mut plain, |out| unsafe {
            plain_read_elements(black_box(header.as_ptr()), out, out.add(127), out.add(254))
        })),
    );
    assert_eq!(
        (port.number, plain.number),
        (elements.len(), elements.len()),
        "{name}: the count"
    );
    for given in [&port, &plain] {
        assert_eq!(
            given.octets[..elements.len()],
            identifiers[..elements.len()],
            "{name}"
        );
        assert_eq!(
            given.octets[127..][..elements.len()],
            lengths[..elements.len()],
            "{name}"
        );
        assert_eq!(
            given.octets[254..][..all.len()],
            all,
            "{name}: the values differ"
        );
    }
    row_without(
        &format!("write a header of {name}"),
        into(&mut port, |out| unsafe {
            tpdu_write_elements(
                black_box(elements.len()),
                black_box(identifiers.as_ptr()),
                black_box(lengths.as_ptr()),
                black_box(values.as_ptr()),
                out,
                256,
            )
        }),
        Some(into(&mut plain, |out| unsafe {
            plain_write_elements(
                black_box(elements.len()),
                black_box(identifiers.as_ptr()),
                black_box(lengths.as_ptr()),
                black_box(values.as_ptr()),
                out,
            )
        })),
    );
    assert_eq!(port.counted(), header, "{name}: the port's header differs");
    assert_eq!(
        plain.counted(),
        header,
        "{name}: the header of the C differs"
    );
}

fn time_relay_reading() {
    let data = [0x07, 0x91, 0x13, 0x26, 0x54, 0x87, 0x09, 0xf1];
    let (mut port, mut plain) = (Given::new(), Given::new());
    row_without(
        "read a relay address of 11 digits",
        into(&mut port, |out| unsafe {
            tpdu_read_relay_address(black_box(data.as_ptr()), data.len(), out)
        }),
        Some(into(&mut plain, |out| unsafe {
            plain_read_relay_address(black_box(data.as_ptr()), out)
        })),
    );
    assert_eq!(port.number, data.len(), "relay address: the octets read");
    assert_eq!(
        &port.octets[..11],
        DIGITS.as_bytes(),
        "the port's digits differ"
    );
    assert_eq!(
        plain.counted(),
        DIGITS.as_bytes(),
        "the digits of the C differ"
    );
}

/// A part accepted and its message taken, while 16 messages are open, beside the part's DELIVER
/// read alone. This program takes the part's mark from its slot each time, so that it is stored
/// anew, and opens the slot again each time, so that the message is there to be taken.
fn time_reassembly() {
    const STORE: usize = 37696;
    const SLOT: usize = 2356;
    let text = &words(153);
    let part = |reference: u8, number: u8| {
        let header = [0x05, 0x00, 0x03, reference, 0x02, number];
        let (user_data, septets) = pack_gsm7_with_header(&header, text).unwrap();
        deliver(0x44, 0x00, septets as u8, &user_data)
    };
    let mut store = vec![0xffu8; STORE];
    assert_eq!(unsafe { tpdu_empty_store(store.as_mut_ptr(), STORE) }, 0);
    for reference in 0..16 {
        let first = part(reference, 1);
        let missing =
            unsafe { tpdu_accept_part(store.as_mut_ptr(), STORE, first.as_ptr(), first.len()) };
        assert_eq!(missing, 1, "part 2 is missing");
    }
    let second = &part(15, 2);
    let mut given = Given::new();
    row_without(
        "read the DELIVER of a part",
        into(&mut given, |out| port_read_deliver(black_box(second), out)),
        None,
    );
    assert_eq!(
        given.counted(),
        &second[second.len() - 140..],
        "the part's user data differ"
    );
    let accept = |store: &mut Vec<u8>| unsafe {
        tpdu_accept_part(
            black_box(store.as_mut_ptr()),
            STORE,
            black_box(second.as_ptr()),
            second.len(),
        )
    };
    let mut missing = usize::MAX;
    row_without(
        "accept the part, 16 messages open",
        side(|| {
            store[15 * SLOT + 3] = 0;
            missing = accept(&mut store);
        }),
        None,
    );
    assert_eq!(missing, 0, "nothing is missing");
    let before = store.clone();
    row_without(
        "accept a copy of it",
        side(|| missing = accept(&mut store)),
        None,
    );
    assert_eq!((missing, &store), (0, &before), "a copy changes nothing");
    let address: [u8; 290] = array(DIGITS.as_bytes());
    let reopened = |store: &mut Vec<u8>, out: *mut u8| unsafe {
        store[15 * SLOT] = 1;
        tpdu_take_message(
            black_box(store.as_mut_ptr()),
            STORE,
            1,
            1,
            black_box(address.as_ptr()),
            DIGITS.len(),
            15,
            2,
            out,
            4080,
        )
    };
    let mut number = 0;
    row_without(
        "take the message, of 2 parts",
        side(|| number = reopened(&mut store, black_box(given.octets.as_mut_ptr()))),
        None,
    );
    assert_eq!(
        &given.octets[..number],
        text.repeat(2).as_bytes(),
        "the message's text differs"
    );
    assert_eq!(store[15 * SLOT], 0, "the slot is closed");
}

/// Strings of these lengths by column, and back.
fn time_columns(name: &str, lengths: &[usize]) {
    let total: usize = lengths.iter().sum();
    let count = lengths.len();
    let octets: Vec<u8> = (0..total).map(|i| (i * 7 + i / 255) as u8).collect();
    let room = 257_002;
    let (mut block, mut others) = (vec![0u8; room], vec![0u8; room]);
    let mut size = 0;
    row_without(
        &format!("{name} by column"),
        side(|| {
            size = unsafe {
                tpdu_to_columns(
                    black_box(octets.as_ptr()),
                    total,
                    black_box(lengths.as_ptr()),
                    count,
                    black_box(block.as_mut_ptr()),
                    room,
                )
            }
        }),
        Some(side(|| unsafe {
            plain_to_columns(
                black_box(octets.as_ptr()),
                black_box(lengths.as_ptr()),
                count,
                black_box(others.as_mut_ptr()),
            );
        })),
    );
    assert!(
        size <= room && block == others,
        "{name}: the two blocks differ"
    );
    let (mut back, mut list) = (vec![0u8; total], vec![0usize; count]);
    let (mut plain_back, mut plain_list) = (back.clone(), list.clone());
    row_without(
        &format!("{name} back"),
        side(|| unsafe {
            tpdu_from_columns(
                black_box(block.as_ptr()),
                size,
                black_box(back.as_mut_ptr()),
                total,
                black_box(list.as_mut_ptr()),
                count,
            );
        }),
        Some(side(|| unsafe {
            plain_from_columns(
                black_box(others.as_ptr()),
                black_box(plain_back.as_mut_ptr()),
                black_box(plain_list.as_mut_ptr()),
            );
        })),
    );
    assert!(
        back == octets && list == lengths,
        "{name}: what the port gives back differs"
    );
    assert!(
        plain_back == octets && plain_list == lengths,
        "{name}: what the C gives back differs"
    );
}

fn main() {
    unsafe { plain_tables() };
    println!("| Work | Rust, ns | port, ns | plain C, ns | Rust / port |");
    println!("|---|---|---|---|---|");
    time_messages();
    time_refusals();
    time_text("160 septets", &words(160));
    time_text("mixed text", MIXED);
    time_text("80 extension characters", &"^{}\\[~]|".repeat(10));
    time_address("11 digits", 1, 1, DIGITS, true);
    time_address("type 5", 5, 0, "Wiglanth", false);
    time_relay_writing();
    time_digits();
    println!();
    println!("| Work | port, ns | plain C, ns | C / port |");
    println!("|---|---|---|---|");
    time_parts();
    time_ucs2("160 septets", &words(160));
    time_ucs2("septets of mixed text", MIXED);
    time_elements(
        "2 elements",
        &[(0x05, &[0x15, 0x81, 0x15, 0x82]), (0x08, &[1, 2, 3, 1])],
    );
    let many: Vec<(u8, &[u8])> = (0..127).map(|i| (2 * i, &[][..])).collect();
    time_elements("127 elements", &many);
    time_relay_reading();
    time_reassembly();
    time_columns("1,000 strings of 255 octets", &[255; 1000]);
    let mut one = [0; 1000];
    one[500] = 255;
    time_columns("1,000 strings, one of 255 octets", &one);
}
