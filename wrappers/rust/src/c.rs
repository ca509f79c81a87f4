//! The exports of libgtp_c and libgtp_c_memory, as gtp_c.h declares them: `wrappers/compare` holds them against the
//! sources.

#[repr(C)]
#[derive(Clone, Copy, Default)]
pub struct GtpuHead {
    pub body_from: usize,
    pub body_len: usize,
    pub teid: u32,
    pub seq: u16,
    pub has_seq: u8,
    pub kind: u8,
}

#[repr(C)]
#[derive(Clone, Copy, Default)]
pub struct Gtpv2Head {
    pub ies_from: usize,
    pub ies_len: usize,
    pub teid: u32,
    pub seq: u32,
    pub has_teid: u8,
    pub kind: u8,
}

#[repr(C)]
#[derive(Clone, Copy, Default)]
pub struct Ie {
    pub from: usize,
    pub to: usize,
    pub kind: u8,
    pub instance: u8,
}

#[repr(C)]
#[derive(Clone, Copy, Default)]
pub struct Imsi {
    pub digits: [u8; 16],
    pub count: u8,
}

#[repr(C)]
#[derive(Clone, Copy, Default)]
pub struct Cause {
    pub cause: u8,
    pub has_offending: u8,
    pub offending_kind: u8,
    pub offending_instance: u8,
}

/// An aggregate maximum bit rate, in kilobits a second.
#[repr(C)]
#[derive(Clone, Copy, Debug, Default, PartialEq, Eq)]
pub struct Ambr {
    pub up: u32,
    pub down: u32,
}

/// A Bearer QoS: rates in kilobits a second, below 2^40; `arp` has PCI in bit 7, the priority level in bits 6 to 3 and PVI
/// in bit 1.
#[repr(C)]
#[derive(Clone, Copy, Debug, Default, PartialEq, Eq)]
pub struct BearerQos {
    pub mbr_up: u64,
    pub mbr_down: u64,
    pub gbr_up: u64,
    pub gbr_down: u64,
    pub arp: u8,
    pub qci: u8,
}

#[repr(C)]
#[derive(Clone, Copy, Default)]
pub struct Fteid {
    pub teid: u32,
    pub address: u32,
    pub interface: u8,
}

#[repr(C)]
#[derive(Clone, Copy, Default)]
pub struct Ip4Head {
    pub source: u32,
    pub destination: u32,
    pub spi: u32,
    pub source_port: u16,
    pub destination_port: u16,
    pub total_len: u16,
    pub fragment_offset: u16,
    pub protocol: u8,
    pub tos: u8,
    pub has_ports: u8,
    pub has_spi: u8,
}

/// A component of a filter: its type octet (TS 24.008, table 10.5.162), and its one or two numbers. One of an unknown
/// type, or with a number that its type hasn't, is fitted by no packet.
#[repr(C)]
#[derive(Clone, Copy, Debug, Default, PartialEq, Eq)]
pub struct TftComponent {
    pub first: u32,
    pub second: u32,
    pub kind: u8,
}

/// A packet filter of a bearer: the first `count` of its components count, nine where it is above.
#[repr(C)]
#[derive(Clone, Copy, Debug, Default, PartialEq, Eq)]
pub struct TftFilter {
    pub components: [TftComponent; 9],
    /// The caller's number of the bearer.
    pub bearer: u8,
    /// The packet filter identifier, 0 to 15.
    pub id: u8,
    /// 0 before Release 7 (as 1), 1 downlink only, 2 uplink only, 3 both.
    pub direction: u8,
    /// The lowest is looked at first.
    pub precedence: u8,
    pub count: u8,
}

#[repr(C)]
#[derive(Clone, Copy, Debug, PartialEq, Eq)]
pub struct Policer {
    pub rate: u64,
    pub level: u64,
    pub last: u64,
}

#[repr(C)]
#[derive(Clone, Copy, Debug, Default, PartialEq, Eq)]
pub struct Piece {
    pub seq: u64,
    pub up_octets: u64,
    pub down_octets: u64,
    pub up_packets: u64,
    pub down_packets: u64,
    pub first: u64,
    pub last: u64,
}

#[repr(C)]
#[derive(Clone, Copy, Default)]
pub struct Gtpv2Fault {
    pub kind: u8,
    pub instance: u8,
}

unsafe extern "C" {
    pub fn gtp_c_gtpu_read(bytes: *const u8, len: usize, head: *mut GtpuHead) -> u32;
    pub fn gtp_c_gpdu_head(teid: u32, payload_len: usize, out: *mut u8, room: usize, needed: *mut usize) -> u32;
    pub fn gtp_c_echo_request(seq: u16, out: *mut u8, room: usize, needed: *mut usize) -> u32;
    pub fn gtp_c_echo_response(seq: u16, out: *mut u8, room: usize, needed: *mut usize) -> u32;
    pub fn gtp_c_error_indication(seq: u16, teid: u32, peer: u32, out: *mut u8, room: usize, needed: *mut usize) -> u32;
    pub fn gtp_c_end_marker(teid: u32, out: *mut u8, room: usize, needed: *mut usize) -> u32;
    pub fn gtp_c_gtpv2_head(bytes: *const u8, len: usize, head: *mut Gtpv2Head) -> u32;
    pub fn gtp_c_ie_at(octets: *const u8, len: usize, at: usize, ie: *mut Ie) -> u32;
    pub fn gtp_c_imsi(value: *const u8, len: usize, imsi: *mut Imsi) -> u32;
    pub fn gtp_c_cause(value: *const u8, len: usize, cause: *mut Cause) -> u32;
    pub fn gtp_c_recovery(value: *const u8, len: usize, counter: *mut u8) -> u32;
    pub fn gtp_c_ambr(value: *const u8, len: usize, ambr: *mut Ambr) -> u32;
    pub fn gtp_c_ebi(value: *const u8, len: usize, ebi: *mut u8) -> u32;
    pub fn gtp_c_paa(value: *const u8, len: usize, address: *mut u32) -> u32;
    pub fn gtp_c_bearer_qos(value: *const u8, len: usize, qos: *mut BearerQos) -> u32;
    pub fn gtp_c_rat_type(value: *const u8, len: usize, rat: *mut u8) -> u32;
    pub fn gtp_c_fteid(value: *const u8, len: usize, fteid: *mut Fteid) -> u32;
    pub fn gtp_c_pdn_type(value: *const u8, len: usize, pdn: *mut u8) -> u32;
    pub fn gtp_c_gtpv2_refusal(
        request: *const u8, len: usize, fault: u32, kind: u8, instance: u8, out: *mut u8, room: usize, needed: *mut usize,
    ) -> u32;
    pub fn gtp_c_gtpv2_echo_response(seq: u32, counter: u8, out: *mut u8, room: usize, needed: *mut usize) -> u32;
    pub fn gtp_c_ip4_read(bytes: *const u8, len: usize, head: *mut Ip4Head) -> u32;
    pub fn gtp_c_tft_fits(filter: *const TftFilter, up: u32, packet: *const u8, len: usize, does_fit: *mut u8) -> u32;
    pub fn gtp_c_tft_choose(
        filters: *const TftFilter, count: usize, has_default: u32, packet: *const u8, len: usize, bearer: *mut u8,
    ) -> u32;
    pub fn gtp_c_tft_apply(
        filters: *const TftFilter, count: usize, operation: u8, entries: *const TftFilter, entry_count: usize,
        out: *mut TftFilter, room: usize, needed: *mut usize,
    ) -> u32;
    pub fn gtp_c_policer_new(rate: u64, policer: *mut Policer) -> u32;
    pub fn gtp_c_policer_ask(policer: *mut Policer, at: u64, octets: u32) -> u32;
    pub fn gtp_c_piece_count(piece: *mut Piece, up: u32, octets: u32, at: u64) -> u32;
    pub fn gtp_c_piece_next(piece: *mut Piece) -> u32;
    pub fn gtp_c_gtpv2_check(bytes: *const u8, len: usize, fault: *mut Gtpv2Fault) -> u32;
    pub fn gtp_c_tft_read(
        octets: *const u8, len: usize, bearer: u8, operation: *mut u8, entries: *mut TftFilter, room: usize,
        needed: *mut usize,
    ) -> u32;
}
