//! The port's functions (crates/bench_exports), and the plain loops in C (plain.c). A slice is a
//! pointer and a length.

type In = *const u8;
type Out = *mut u8;

/// A message as the plain C has it.
#[repr(C)]
pub struct Message {
    pub octets: [u8; 10],
    pub address_length: usize,
    pub length: usize,
    pub header_length: usize,
    pub text_length: usize,
    pub address: [u8; 290],
    pub time: [u8; 14],
    pub later: [u8; 14],
    pub user_data: [u8; 255],
    pub header: [u8; 255],
    pub text: [u8; 510],
}

impl Message {
    /// One of the arrays holds just these octets.
    pub fn holds(&self, octets: &[u8]) -> bool {
        let data = [
            &self.user_data[..self.length],
            &self.text[..self.text_length],
        ];
        let digits = [
            &self.address[..self.address_length],
            &self.time,
            &self.later,
        ];
        data.into_iter().chain(digits).any(|held| held == octets)
    }
}

pub type PlainRead = unsafe extern "C" fn(In, *mut Message);
pub type PlainWrite = unsafe extern "C" fn(*const Message, Out) -> usize;

extern "C" {
    pub fn tpdu_read_deliver(
        data: In,
        length: usize,
        address: Out,
        time: Out,
        user_data: Out,
    ) -> usize;
    pub fn tpdu_read_submit(
        data: In,
        length: usize,
        address: Out,
        user_data: Out,
        header: Out,
        text: Out,
    ) -> usize;
    pub fn tpdu_read_status_report(
        data: In,
        length: usize,
        address: Out,
        sent: Out,
        done: Out,
        user_data: Out,
    ) -> usize;
    pub fn tpdu_read_submit_report(data: In, length: usize, time: Out, user_data: Out) -> usize;
    pub fn tpdu_read_deliver_report(data: In, length: usize, user_data: Out) -> usize;
    pub fn tpdu_write_deliver(
        tp_rp: bool,
        tp_udhi: bool,
        tp_sri: bool,
        tp_lp: bool,
        tp_mms: bool,
        tp_mti: u8,
        ton: u8,
        npi: u8,
        address: In,
        address_length: usize,
        tp_pid: u8,
        tp_dcs: u8,
        time: In,
        tp_user_data_length: u8,
        user_data: In,
        length: usize,
        out: Out,
        room: usize,
    ) -> usize;
    pub fn tpdu_write_submit(
        tp_rp: bool,
        tp_udhi: bool,
        tp_srr: bool,
        tp_mti: u8,
        tp_rd: bool,
        tp_vpf: u8,
        tp_mr: u8,
        ton: u8,
        npi: u8,
        address: In,
        address_length: usize,
        tp_pid: u8,
        tp_dcs: u8,
        period: u8,
        tp_user_data_length: u8,
        user_data: In,
        length: usize,
        has_user_data_header: bool,
        header: In,
        header_length: usize,
        text: In,
        text_length: usize,
        out: Out,
        room: usize,
    ) -> usize;
    pub fn tpdu_write_status_report(
        tp_udhi: bool,
        tp_srq: bool,
        tp_lp: bool,
        tp_mms: bool,
        tp_mr: u8,
        ton: u8,
        npi: u8,
        address: In,
        address_length: usize,
        sent: In,
        done: In,
        tp_status: u8,
        user_data: In,
        length: usize,
        out: Out,
        room: usize,
    ) -> usize;
    pub fn tpdu_write_submit_report(
        tp_udhi: u8,
        tp_parameter_indicator: u8,
        time: In,
        pid: u8,
        dcs: u8,
        udl: u8,
        user_data: In,
        length: usize,
        out: Out,
        room: usize,
    ) -> usize;
    pub fn tpdu_write_deliver_report(
        tp_udhi: bool,
        tp_parameter_indicator: u8,
        pid: u8,
        dcs: u8,
        udl: u8,
        user_data: In,
        length: usize,
        out: Out,
        room: usize,
    ) -> usize;
    pub fn tpdu_pack(text: In, length: usize, out: Out, room: usize) -> usize;
    pub fn tpdu_unpack(data: In, length: usize, septets: usize, text: Out) -> usize;
    pub fn tpdu_address(ton: u8, npi: u8, text: In, length: usize, out: Out, room: usize) -> usize;
    pub fn tpdu_read_relay_address(data: In, length: usize, digits: Out) -> usize;
    pub fn tpdu_write_relay_address(
        ton: u8,
        npi: u8,
        digits: In,
        length: usize,
        out: Out,
        room: usize,
    ) -> usize;
    pub fn tpdu_digits(
        year: u8,
        month: u8,
        day: u8,
        hour: u8,
        minute: u8,
        second: u8,
        zone: i8,
        digits: Out,
    ) -> usize;
    pub fn tpdu_concatenate(text: In, length: usize, reference: u8, out: Out, room: usize)
        -> usize;
    pub fn tpdu_ucs2_to_gsm7(ucs2: In, length: usize, out: Out, room: usize) -> usize;
    pub fn tpdu_gsm7_to_ucs2(
        data: In,
        length: usize,
        septets: usize,
        out: Out,
        room: usize,
    ) -> usize;
    pub fn tpdu_read_elements(
        header: In,
        length: usize,
        identifiers: Out,
        lengths: Out,
        values: Out,
    ) -> usize;
    pub fn tpdu_write_elements(
        count: usize,
        identifiers: In,
        lengths: In,
        values: In,
        out: Out,
        room: usize,
    ) -> usize;
    pub fn tpdu_empty_store(store: Out, length: usize) -> usize;
    pub fn tpdu_accept_part(store: Out, length: usize, data: In, data_length: usize) -> usize;
    pub fn tpdu_take_message(
        store: Out,
        store_length: usize,
        ton: u8,
        npi: u8,
        text: In,
        length: usize,
        reference: u8,
        total: u8,
        out: Out,
        room: usize,
    ) -> usize;
    pub fn tpdu_to_columns(
        octets: In,
        length: usize,
        lengths: *const usize,
        count: usize,
        out: Out,
        room: usize,
    ) -> usize;
    pub fn tpdu_from_columns(
        block: In,
        length: usize,
        octets: Out,
        room: usize,
        lengths: *mut usize,
        list: usize,
    ) -> usize;

    pub fn plain_tables();
    pub fn plain_read_deliver(data: In, message: *mut Message);
    pub fn plain_write_deliver(message: *const Message, out: Out) -> usize;
    pub fn plain_read_submit(data: In, message: *mut Message);
    pub fn plain_write_submit(message: *const Message, out: Out) -> usize;
    pub fn plain_read_status_report(data: In, message: *mut Message);
    pub fn plain_write_status_report(message: *const Message, out: Out) -> usize;
    pub fn plain_read_submit_report(data: In, message: *mut Message);
    pub fn plain_write_submit_report(message: *const Message, out: Out) -> usize;
    pub fn plain_read_deliver_report(data: In, message: *mut Message);
    pub fn plain_write_deliver_report(message: *const Message, out: Out) -> usize;
    pub fn plain_pack(text: In, length: usize, out: Out) -> usize;
    pub fn plain_unpack(data: In, septets: usize, text: Out) -> usize;
    pub fn plain_address(ton: u8, npi: u8, text: In, length: usize, out: Out) -> usize;
    pub fn plain_read_relay_address(data: In, digits: Out) -> usize;
    pub fn plain_write_relay_address(ton: u8, npi: u8, text: In, length: usize, out: Out) -> usize;
    pub fn plain_digits(
        year: u8,
        month: u8,
        day: u8,
        hour: u8,
        minute: u8,
        second: u8,
        zone: i8,
        digits: Out,
    ) -> usize;
    pub fn plain_concatenate(text: In, length: usize, reference: u8, out: Out) -> usize;
    pub fn plain_ucs2_to_gsm7(ucs2: In, length: usize, out: Out) -> usize;
    pub fn plain_gsm7_to_ucs2(data: In, septets: usize, out: Out) -> usize;
    pub fn plain_read_elements(header: In, identifiers: Out, lengths: Out, values: Out) -> usize;
    pub fn plain_write_elements(
        count: usize,
        identifiers: In,
        lengths: In,
        values: In,
        out: Out,
    ) -> usize;
    pub fn plain_to_columns(octets: In, lengths: *const usize, count: usize, out: Out) -> usize;
    pub fn plain_from_columns(block: In, octets: Out, lengths: *mut usize) -> usize;
}
