//! The library's error messages as numbers of the list of refusals.

use tpdu::Error;

/// The names of the refusals from number 1.
const NAMES: [&str; 23] = [
    "LengthTooLarge",
    "OctetsEnd",
    "WrongMessageType",
    "UdhiTooLarge",
    "ValidityFormatDisagrees",
    "NoDestination",
    "UserDataLengthDisagrees",
    "UserDataTooLong",
    "NumberTypeOrPlanTooLarge",
    "NotInAlphabet",
    "AddressTooLong",
    "NotATime",
    "IndicatorDisagrees",
    "IndicatorExtended",
    "UserDataWithoutLength",
    "ParametersWithoutIndicator",
    "HeaderNotWhole",
    "HeaderPassesCount",
    "TooFewOctets",
    "CalendarOutOfRange",
    "ZoneOutOfRange",
    "TooManySeptets",
    "OutputTooShort",
];

/// Where in a message its words stand.
enum At {
    Start,
    End,
    Within,
}

use At::{End, Start, Within};

/// Words of the library's messages and the number of the refusal that they mean; the first row
/// that fits decides.
///
/// A message about an address or a time has the request's own text in it, which may hold any
/// words. Those messages come first, and are known by how they begin or end, where the request
/// has no say. 1, 22 and 23 are the port's own: no message means them.
const RULES: [(At, &str, usize); 25] = [
    (End, "is not a digit, '*', '#', 'a', 'b' or 'c'", 10),
    (End, "octets, the maximum is 10", 11),
    (Start, "TP-Service-Centre-Time-Stamp must be 14", 12),
    (Start, "TP-Discharge-Time must be 14", 12),
    (Start, "TP-Validity-Period must be 14", 12),
    (
        End,
        "is not in the GSM 7-bit default alphabet (TS 23.038 §6.2.1)",
        10,
    ),
    // A header that SUBMIT's data don't hold whole is told as octets that can't be read.
    (Start, "Unable to decode User Data Header", 17),
    (Within, "Unable to read", 2),
    (Start, "TP-MTI", 3),
    (Start, "TP-UDHI is one bit", 4),
    (Start, "TP-VPF", 5),
    (Start, "SMS-SUBMIT needs a TP-Destination-Address", 6),
    (Within, "octets of TP-User-Data, got", 7),
    (End, "octets, the maximum is 140", 8),
    (End, "do not fit their 3 and 4 bit fields", 9),
    (End, "disagree", 13),
    (Within, "announces a second indicator octet", 14),
    (End, "TP-User-Data supplied without a TP-UDL", 15),
    (End, "optional parameters need a TP-Parameter-Indicator", 16),
    (Start, "user-data header is", 17),
    (Start, "TP-User-Data is empty", 17),
    (Within, "user-data header takes", 18),
    (Within, "septets need", 19),
    (Start, "time stamp", 20),
    (Start, "time zone", 21),
];

fn holds(message: &str, at: &At, words: &str) -> bool {
    match at {
        Start => message.starts_with(words),
        End => message.ends_with(words),
        Within => message.contains(words),
    }
}

/// The number of the refusal that a message means.
fn number(message: &str) -> Option<usize> {
    let rule = RULES.iter().find(|rule| holds(message, &rule.0, rule.1))?;
    Some(rule.2)
}

/// The answer to a request that the library refused.
pub fn shown(error: &Error) -> String {
    match number(error.message()) {
        Some(number) => format!("refused {number} {}", NAMES[number - 1]),
        None => "refused -".to_string(),
    }
}

#[cfg(test)]
mod tests {
    use super::number;

    /// An address or a time that holds the words of other messages doesn't mislead.
    #[test]
    fn words_of_the_request() {
        let time = "TP-Discharge-Time must be 14 semi-octet digits, got \"TP-MTI disagree\"";
        assert_eq!(number(time), Some(12));
        let address = "address \"Unable to read TP-MTI\" needs 11 octets, the maximum is 10";
        assert_eq!(number(address), Some(11));
    }

    /// Words that mean nothing in the list have no number.
    #[test]
    fn no_number() {
        assert_eq!(number("fill bits out of range"), None);
    }
}
