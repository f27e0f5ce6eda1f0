//! Addresses of the relay layer. The library's reader of one is private and its writer of none too,
//! so both are reached through an RP-DATA around the address: its message type and reference before
//! it, and after it no destination address and a DELIVER.

use tpdu::{
    parse_rp_data_network_to_ms, Error, RpDataNetworkToMs, RpDataNetworkToMsMessage, SMSAddress,
};

const BEFORE: [u8; 2] = [tpdu::RP_DATA_NETWORK_TO_MS, 0];
const AFTER: [u8; 15] = [
    0x00, 13, 0x04, 0x00, 0x91, 0x00, 0x00, 0x42, 0x20, 0x51, 0x21, 0x03, 0x54, 0x00, 0x00,
];
/// A length octet and what it counts.
const LONGEST: usize = 256;

fn parse(address: &[u8], after: &[u8]) -> Result<RpDataNetworkToMsMessage, Error> {
    parse_rp_data_network_to_ms(&[&BEFORE, address, after].concat())
}

/// The message with no address.
fn around() -> RpDataNetworkToMs {
    match parse(&[0x00], &AFTER) {
        Ok(RpDataNetworkToMsMessage::Deliver(message)) => message,
        _ => unreachable!("a whole message with a DELIVER"),
    }
}

/// The address at the start of octets, and how many octets it takes: those after which all of AFTER
/// is read as it is. (Where they are too few, the address takes some of AFTER, and what is left
/// holds no DELIVER that long.)
pub fn read(data: &[u8]) -> Result<(Option<SMSAddress>, usize), Error> {
    let around = around();
    for n in 1..=data.len().min(LONGEST) {
        if let Ok(RpDataNetworkToMsMessage::Deliver(message)) = parse(&data[..n], &AFTER) {
            let nobody = message.rp_destination_address.is_none();
            if nobody && message.sms_deliver == around.sms_deliver {
                return Ok((message.rp_originator_address, n));
            }
        }
    }
    match parse(data, &[]) {
        Err(error) => Err(error),
        Ok(_) => unreachable!("an address that was not found"),
    }
}

/// The octets of an address, or of none.
pub fn written(address: Option<SMSAddress>) -> Result<Vec<u8>, Error> {
    let mut message = around();
    message.rp_originator_address = address;
    let octets = message.encode()?;
    let own = octets.strip_prefix(&BEFORE).and_then(|o| o.strip_suffix(&AFTER));
    Ok(own.expect("the message around the address").to_vec())
}

#[cfg(test)]
mod tests {
    use super::{read, written};

    /// Octets after the address are not looked at, and an address that is cut off is refused.
    #[test]
    fn around_an_address() {
        let octets = [0x04, 0x91, 0x21, 0x43, 0xF5, 0x00];
        let (address, n) = read(&octets).unwrap();
        assert_eq!((address.as_ref().map(|a| a.address.as_str()), n), (Some("12345"), 5));
        assert_eq!(written(address).unwrap(), octets[..5]);
        assert!(read(&octets[..4]).is_err() && read(&[]).is_err());
    }

    #[test]
    fn no_address() {
        assert_eq!(read(&[0x00, 0x04]).unwrap(), (None, 1));
        assert_eq!(written(None).unwrap(), [0x00]);
    }
}
