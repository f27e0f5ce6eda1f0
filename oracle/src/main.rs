//! Answers the requests of `tpdutool`, a line each, with what the published Rust crate tpdu does.
//! Nothing of the codec is here: a request is taken apart, the library is called, and its record,
//! octets or error is put into the answer's words.

mod fields;
mod records;
mod refusals;
mod relay;
mod shown;

use fields::{number, octet, octets, signed, text};
use records::{Kind, Record};
use std::io::{self, BufRead, BufReader, BufWriter, Write};
use tpdu::UserDataCoding;

/// A line of more octets than this is no request.
const LONGEST_LINE: usize = 8192;
/// The largest number of nine digits.
const LARGEST_COUNT: u32 = 999_999_999;

/// Why a request has no result.
pub enum Failure {
    /// It isn't well formed; the words behind `bad`.
    Bad(String),
    /// The library turned it down.
    Refused(tpdu::Error),
}

impl From<tpdu::Error> for Failure {
    fn from(error: tpdu::Error) -> Self {
        Failure::Refused(error)
    }
}

pub fn bad(reason: &str) -> Failure {
    Failure::Bad(reason.to_string())
}

fn main() -> io::Result<()> {
    let mut input = BufReader::with_capacity(1 << 16, io::stdin().lock());
    let mut output = BufWriter::with_capacity(1 << 16, io::stdout().lock());
    let mut line = Vec::new();
    while input.read_until(b'\n', &mut line)? > 0 {
        let answer = match answer(&line) {
            Ok(result) => format!("ok {result}"),
            Err(Failure::Bad(reason)) => format!("bad {reason}"),
            Err(Failure::Refused(error)) => refusals::shown(&error),
        };
        writeln!(output, "{answer}")?;
        line.clear();
    }
    output.flush()
}

/// What stands behind `ok` for a line, which may still have its line end.
fn answer(line: &[u8]) -> Result<String, Failure> {
    let (octets, whole) = match line.strip_suffix(b"\n") {
        Some(before) => (before, true),
        None => (line, false),
    };
    if octets.len() > LONGEST_LINE {
        return Err(bad("line too long"));
    }
    // CR belongs to the line's end only in front of LF.
    let octets = match octets.strip_suffix(b"\r") {
        Some(before) if whole => before,
        _ => octets,
    };
    let mut fields = octets.split(|&o| o == b' ').filter(|f| !f.is_empty());
    let name = fields.next().ok_or_else(|| bad("empty line"))?;
    request(name, &fields.collect::<Vec<_>>())
}

/// The request by its name, `given` being the fields behind it.
fn request(name: &[u8], given: &[&[u8]]) -> Result<String, Failure> {
    if let Some(kind) = Kind::read_by(name) {
        let (record, place) = read(kind, given)?;
        return Ok(shown::fields(&record, place));
    }
    if let Some(kind) = name.strip_prefix(b"re-").and_then(Kind::read_by) {
        let (record, _) = read(kind, given)?;
        return Ok(shown::hex(&record.encode()?));
    }
    if let Some(keys) = name.strip_prefix(b"enc-").and_then(records::keys) {
        let record = keys.record(given)?;
        return Ok(shown::hex(&record.encode()?));
    }
    match name {
        b"unpack" => unpack(given),
        b"unpack-header" => unpack_header(given),
        b"pack" => pack(given),
        b"pack-header" => pack_header(given),
        b"address" => address(given),
        b"coding" => coding(given),
        b"digits" => digits(given),
        b"relay" => relay_read(given),
        b"relay-write" => relay_written(given),
        _ => Err(bad("unknown request")),
    }
}

/// The fields, if there are as many as the request takes.
fn exactly<'a, const N: usize>(given: &[&'a [u8]]) -> Result<[&'a [u8]; N], Failure> {
    given.try_into().map_err(|_| bad("number of fields"))
}

fn read(kind: Kind, given: &[&[u8]]) -> Result<(Record, u64), Failure> {
    let [data] = exactly(given)?;
    Ok(kind.read(&octets(data)?)?)
}

fn unpack(given: &[&[u8]]) -> Result<String, Failure> {
    let [count, data] = exactly(given)?;
    let (count, data) = (number(count, LARGEST_COUNT)?, octets(data)?);
    let text = tpdu::unpack_gsm7(&data, count as usize)?;
    Ok(format!("text={}", shown::hex(text.as_bytes())))
}

fn unpack_header(given: &[&[u8]]) -> Result<String, Failure> {
    let [count, data] = exactly(given)?;
    let (count, data) = (number(count, LARGEST_COUNT)?, octets(data)?);
    let (header, text) = tpdu::unpack_gsm7_with_header(&data, count as usize)?;
    Ok(format!(
        "header={} text={}",
        shown::hex(&header),
        shown::hex(text.as_bytes())
    ))
}

fn pack(given: &[&[u8]]) -> Result<String, Failure> {
    let [data] = exactly(given)?;
    let (packed, septets) = tpdu::pack_gsm7(&text(&octets(data)?))?;
    Ok(packed_shown(&packed, septets))
}

fn pack_header(given: &[&[u8]]) -> Result<String, Failure> {
    let [header, data] = exactly(given)?;
    let (header, data) = (octets(header)?, octets(data)?);
    let (packed, septets) = tpdu::pack_gsm7_with_header(&header, &text(&data))?;
    Ok(packed_shown(&packed, septets))
}

fn packed_shown(packed: &[u8], septets: usize) -> String {
    format!("septets={septets} octets={}", shown::hex(packed))
}

fn address(given: &[&[u8]]) -> Result<String, Failure> {
    Ok(shown::hex(&address_of(exactly(given)?)?.encode(false)?))
}

/// The address of type of number, plan and text.
fn address_of(fields: [&[u8]; 3]) -> Result<tpdu::SMSAddress, Failure> {
    let [ton, npi, address] = fields;
    Ok(tpdu::SMSAddress {
        ton: octet(ton)?,
        npi: octet(npi)?,
        address: text(&octets(address)?),
    })
}

fn relay_read(given: &[&[u8]]) -> Result<String, Failure> {
    let [data] = exactly(given)?;
    let (address, read) = relay::read(&octets(data)?)?;
    Ok(shown::relay_address(address.as_ref(), read))
}

fn relay_written(given: &[&[u8]]) -> Result<String, Failure> {
    let address = match exactly(given)? {
        [b"-", b"-", b"-"] => None,
        fields => Some(address_of(fields)?),
    };
    Ok(shown::hex(&relay::written(address)?))
}

fn coding(given: &[&[u8]]) -> Result<String, Failure> {
    let [dcs] = exactly(given)?;
    let dcs = fields::hex_octet(dcs).ok_or_else(|| bad("coding"))?;
    let name = match tpdu::user_data_coding(dcs) {
        UserDataCoding::Gsm7Bit => "7bit",
        UserDataCoding::EightBit => "8bit",
        UserDataCoding::Ucs2 => "ucs2",
        UserDataCoding::Compressed => "compressed",
    };
    Ok(name.to_string())
}

fn digits(given: &[&[u8]]) -> Result<String, Failure> {
    let [year, month, day, hour, minute, second, zone] = exactly(given)?;
    Ok(tpdu::timestamp_digits(
        octet(year)?,
        octet(month)?,
        octet(day)?,
        octet(hour)?,
        octet(minute)?,
        octet(second)?,
        signed(zone)?,
    )?)
}
