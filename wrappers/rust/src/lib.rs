//! GTP-U, GTPv2-C, traffic flow templates, policing and charging: safe Rust over the proved functions of libgtp_c and
//! libgtp_c_memory. No export requires anything of its numbers, so each call is safe for any values: what the exports ask
//! of memory is what `&[u8]` and `&mut` say. Nothing here takes memory but [`gtpv2_check`] and [`tft_read`], for the time
//! of the call.
//!
//! ```
//! let message = gtp_c::gtpu_read(&[0x30, 255, 0, 2, 0, 0, 0, 0x11, 0x45, 0])?;
//! assert_eq!((message.kind, message.teid, message.body), (255, 0x11, &[0x45, 0][..]));
//! # Ok::<(), gtp_c::Refusal>(())
//! ```
//!
//! What is lent doesn't outlive its octets:
//!
//! ```compile_fail,E0597
//! let body = {
//!     let octets = vec![0x30, 255, 0, 2, 0, 0, 0, 0x11, 0x45, 0];
//!     gtp_c::gtpu_read(&octets).unwrap().body
//! };
//! println!("{body:?}");
//! ```
//!
//! ```compile_fail,E0506
//! let mut octets = [0x40, 1, 0, 4, 0, 0, 7, 0];
//! let message = gtp_c::gtpv2_head(&octets).unwrap();
//! octets[0] = 0;
//! println!("{:?}", message.elements);
//! ```
mod c;
mod refusal;

pub use c::{Ambr, BearerQos, TftComponent, TftFilter};
pub use refusal::Refusal;
use refusal::{done, refusal, written};
use std::net::Ipv4Addr;

/// A message of GTP-U (TS 29.281, section 5.1).
#[derive(Clone, Copy, Debug, PartialEq, Eq)]
pub struct GtpuMessage<'a> {
    /// 1 Echo Request, 2 Echo Response, 26 Error Indication, 254 End Marker, 255 G-PDU.
    pub kind: u8,
    /// The tunnel endpoint.
    pub teid: u32,
    /// The sequence number, where it has one.
    pub seq: Option<u16>,
    /// The octets behind its extension headers.
    pub body: &'a [u8],
}

/// The GTP-U message at the front of some octets.
pub fn gtpu_read(octets: &[u8]) -> Result<GtpuMessage<'_>, Refusal> {
    let mut head = c::GtpuHead::default();
    // SAFETY: pointer and length are those of one slice; `head` is this frame's own. `wrappers/compare` holds the
    // declaration against the export, which has no requires.
    done(unsafe { c::gtp_c_gtpu_read(octets.as_ptr(), octets.len(), &mut head) })?;
    Ok(GtpuMessage {
        kind: head.kind,
        teid: head.teid,
        seq: (head.has_seq == 1).then_some(head.seq),
        // in range by the export's clause; tested once more, so that safe Rust rests on no foreign promise
        body: &octets[head.body_from..][..head.body_len],
    })
}

/// Makes a call that writes into a slice.
macro_rules! write_into {
    ($call:ident, $out:ident $(, $argument:expr)*) => {{
        let mut needed = 0;
        // SAFETY: as in `gtpu_read`; `out` and `needed` lie apart, as two `&mut` do.
        let code = unsafe { c::$call($($argument,)* $out.as_mut_ptr(), $out.len(), &mut needed) };
        written(code, needed)
    }};
}

/// Writes the eight octets before a payload of so many octets, and says how many it wrote.
pub fn gpdu_head(teid: u32, payload_len: usize, out: &mut [u8]) -> Result<usize, Refusal> {
    write_into!(gtp_c_gpdu_head, out, teid, payload_len)
}

/// Writes an Echo Request of GTP-U: 12 octets.
pub fn echo_request(seq: u16, out: &mut [u8]) -> Result<usize, Refusal> {
    write_into!(gtp_c_echo_request, out, seq)
}

/// Writes an Echo Response of GTP-U, with a restart counter of 0: 14 octets.
pub fn echo_response(seq: u16, out: &mut [u8]) -> Result<usize, Refusal> {
    write_into!(gtp_c_echo_response, out, seq)
}

/// Writes an Error Indication: there is no tunnel of this TEID at this address. 24 octets.
pub fn error_indication(seq: u16, teid: u32, peer: Ipv4Addr, out: &mut [u8]) -> Result<usize, Refusal> {
    write_into!(gtp_c_error_indication, out, seq, teid, u32::from(peer))
}

/// Writes an End Marker: 8 octets.
pub fn end_marker(teid: u32, out: &mut [u8]) -> Result<usize, Refusal> {
    write_into!(gtp_c_end_marker, out, teid)
}

/// The head of a GTPv2-C message, and its elements (TS 29.274, section 5.1).
#[derive(Clone, Copy, Debug, PartialEq, Eq)]
pub struct Gtpv2Message<'a> {
    /// The message type (table 6.1-1).
    pub kind: u8,
    /// The tunnel endpoint, where its head has one.
    pub teid: Option<u32>,
    /// The sequence number, below 2^24.
    pub seq: u32,
    /// The octets of its elements.
    pub elements: &'a [u8],
}

/// The head of the GTPv2-C message at the front of some octets.
pub fn gtpv2_head(octets: &[u8]) -> Result<Gtpv2Message<'_>, Refusal> {
    let mut head = c::Gtpv2Head::default();
    // SAFETY: as in `gtpu_read`.
    done(unsafe { c::gtp_c_gtpv2_head(octets.as_ptr(), octets.len(), &mut head) })?;
    Ok(Gtpv2Message {
        kind: head.kind,
        teid: (head.has_teid == 1).then_some(head.teid),
        seq: head.seq,
        elements: &octets[head.ies_from..][..head.ies_len],
    })
}

/// An element (TS 29.274, section 8.2.1).
#[derive(Clone, Copy, Debug, PartialEq, Eq)]
pub struct Element<'a> {
    /// The element type (table 8.1-1).
    pub kind: u8,
    /// Below 16.
    pub instance: u8,
    /// The octets of its value.
    pub value: &'a [u8],
}

/// A walk over elements, one behind another: it ends behind the last one, or behind a refusal.
#[derive(Clone, Debug)]
pub struct Elements<'a> {
    octets: &'a [u8],
    at: usize,
}

/// The elements of some octets, as those of a message or of a Bearer Context.
pub fn elements(octets: &[u8]) -> Elements<'_> {
    Elements { octets, at: 0 }
}

impl<'a> Iterator for Elements<'a> {
    type Item = Result<Element<'a>, Refusal>;

    fn next(&mut self) -> Option<Self::Item> {
        const END: u32 = 25;
        let mut ie = c::Ie::default();
        // SAFETY: as in `gtpu_read`.
        let code = unsafe { c::gtp_c_ie_at(self.octets.as_ptr(), self.octets.len(), self.at, &mut ie) };
        if code == 0 {
            self.at = ie.to;
            return Some(Ok(Element { kind: ie.kind, instance: ie.instance, value: &self.octets[ie.from..ie.to] }));
        }
        self.at = self.octets.len();
        (code != END).then(|| Err(refusal(code, 0)))
    }
}

/// Makes a call that reads a value.
macro_rules! read_value {
    ($call:ident, $value:ident, $empty:expr) => {{
        let mut found = $empty;
        // SAFETY: as in `gtpu_read`.
        done(unsafe { c::$call($value.as_ptr(), $value.len(), &mut found) })?;
        found
    }};
}

/// An IMSI: 6 to 15 digits.
#[derive(Clone, Copy, PartialEq, Eq)]
pub struct Imsi {
    digits: [u8; 16],
    count: usize,
}

impl Imsi {
    /// The digits, in ASCII.
    pub fn digits(&self) -> &[u8] {
        &self.digits[..self.count]
    }
}

impl std::fmt::Display for Imsi {
    fn fmt(&self, f: &mut std::fmt::Formatter<'_>) -> std::fmt::Result {
        self.digits().iter().try_for_each(|digit| write!(f, "{}", char::from(*digit)))
    }
}

impl std::fmt::Debug for Imsi {
    fn fmt(&self, f: &mut std::fmt::Formatter<'_>) -> std::fmt::Result {
        write!(f, "Imsi({self})")
    }
}

/// The value of an IMSI (TS 29.274, section 8.3).
pub fn imsi(value: &[u8]) -> Result<Imsi, Refusal> {
    let found = read_value!(gtp_c_imsi, value, c::Imsi::default());
    Ok(Imsi { digits: found.digits, count: usize::from(found.count).min(15) })
}

/// A Cause.
#[derive(Clone, Copy, Debug, PartialEq, Eq)]
pub struct Cause {
    /// Its value (table 8.4-1).
    pub cause: u8,
    /// The type and instance of the element that it is about.
    pub offending: Option<(u8, u8)>,
}

/// The value of a Cause (section 8.4).
pub fn cause(value: &[u8]) -> Result<Cause, Refusal> {
    let found = read_value!(gtp_c_cause, value, c::Cause::default());
    Ok(Cause {
        cause: found.cause,
        offending: (found.has_offending == 1).then_some((found.offending_kind, found.offending_instance)),
    })
}

/// The restart counter of a Recovery (section 8.5).
pub fn recovery(value: &[u8]) -> Result<u8, Refusal> {
    Ok(read_value!(gtp_c_recovery, value, 0))
}

/// The value of an AMBR (section 8.7).
pub fn ambr(value: &[u8]) -> Result<Ambr, Refusal> {
    Ok(read_value!(gtp_c_ambr, value, Ambr::default()))
}

/// An EPS bearer identity: 0 or 5 to 15 (section 8.8).
pub fn ebi(value: &[u8]) -> Result<u8, Refusal> {
    Ok(read_value!(gtp_c_ebi, value, 0))
}

/// The address of a PAA of PDN type IPv4 (section 8.14).
pub fn paa(value: &[u8]) -> Result<Ipv4Addr, Refusal> {
    Ok(Ipv4Addr::from(read_value!(gtp_c_paa, value, 0)))
}

/// The value of a Bearer QoS (section 8.15).
pub fn bearer_qos(value: &[u8]) -> Result<BearerQos, Refusal> {
    Ok(read_value!(gtp_c_bearer_qos, value, BearerQos::default()))
}

/// A RAT Type (section 8.17).
pub fn rat_type(value: &[u8]) -> Result<u8, Refusal> {
    Ok(read_value!(gtp_c_rat_type, value, 0))
}

/// An F-TEID with an IPv4 address.
#[derive(Clone, Copy, Debug, PartialEq, Eq)]
pub struct Fteid {
    /// The tunnel endpoint.
    pub teid: u32,
    /// Its address.
    pub address: Ipv4Addr,
    /// The interface type, below 64 (table 8.22-1).
    pub interface: u8,
}

/// The value of an F-TEID (section 8.22).
pub fn fteid(value: &[u8]) -> Result<Fteid, Refusal> {
    let found = read_value!(gtp_c_fteid, value, c::Fteid::default());
    Ok(Fteid { teid: found.teid, address: Ipv4Addr::from(found.address), interface: found.interface })
}

/// A PDN Type: 1 IPv4, 2 IPv6, 3 both (section 8.34).
pub fn pdn_type(value: &[u8]) -> Result<u8, Refusal> {
    Ok(read_value!(gtp_c_pdn_type, value, 0))
}

/// Writes the reply to a request that [`gtpv2_check`] refuses with `Missing` or `Incorrect`; `Range` where it is refused
/// with anything else.
pub fn gtpv2_refusal(request: &[u8], refused: Refusal, out: &mut [u8]) -> Result<usize, Refusal> {
    let (fault, kind, instance) = match refused {
        Refusal::Missing { kind, instance } => (10, kind, instance),
        Refusal::Incorrect { kind, instance } => (11, kind, instance),
        _ => return Err(Refusal::Range),
    };
    write_into!(gtp_c_gtpv2_refusal, out, request.as_ptr(), request.len(), fault, kind, instance)
}

/// Writes an Echo Response of GTPv2-C to a sequence number below 2^24: 13 octets.
pub fn gtpv2_echo_response(seq: u32, counter: u8, out: &mut [u8]) -> Result<usize, Refusal> {
    write_into!(gtp_c_gtpv2_echo_response, out, seq, counter)
}

/// The fields of an IPv4 packet (RFC 791, section 3.1).
#[derive(Clone, Copy, Debug, PartialEq, Eq)]
pub struct Ip4 {
    /// Where it comes from.
    pub source: Ipv4Addr,
    /// Where it goes.
    pub destination: Ipv4Addr,
    /// The source and the destination port of TCP, UDP and SCTP.
    pub ports: Option<(u16, u16)>,
    /// The security parameter index of ESP and AH.
    pub spi: Option<u32>,
    /// Octets, header and payload.
    pub total_len: u16,
    /// In units of eight octets.
    pub fragment_offset: u16,
    /// The number of the payload's protocol.
    pub protocol: u8,
    /// The type of service.
    pub tos: u8,
}

/// The fields of the IPv4 packet at the front of some octets.
pub fn ip4_read(octets: &[u8]) -> Result<Ip4, Refusal> {
    let found = read_value!(gtp_c_ip4_read, octets, c::Ip4Head::default());
    Ok(Ip4 {
        source: Ipv4Addr::from(found.source),
        destination: Ipv4Addr::from(found.destination),
        ports: (found.has_ports == 1).then_some((found.source_port, found.destination_port)),
        spi: (found.has_spi == 1).then_some(found.spi),
        total_len: found.total_len,
        fragment_offset: found.fragment_offset,
        protocol: found.protocol,
        tos: found.tos,
    })
}

/// Where a packet goes.
#[derive(Clone, Copy, Debug, PartialEq, Eq)]
pub enum Way {
    /// From the user.
    Up,
    /// To the user.
    Down,
}

/// Whether a packet fits a filter (TS 24.008, 10.5.6.12).
pub fn tft_fits(filter: &TftFilter, way: Way, packet: &[u8]) -> Result<bool, Refusal> {
    let mut fits = 0;
    // SAFETY: as in `gtpu_read`.
    done(unsafe { c::gtp_c_tft_fits(filter, u32::from(way == Way::Up), packet.as_ptr(), packet.len(), &mut fits) })?;
    Ok(fits == 1)
}

/// The bearer that a downlink packet takes: that of the first filter that it fits, by precedence, bearer and identifier;
/// where it fits none, bearer 0 if that is there without filters.
pub fn tft_choose(filters: &[TftFilter], has_default: bool, packet: &[u8]) -> Result<u8, Refusal> {
    let mut bearer = 0;
    // SAFETY: as in `gtpu_read`.
    done(unsafe {
        c::gtp_c_tft_choose(
            filters.as_ptr(), filters.len(), u32::from(has_default), packet.as_ptr(), packet.len(), &mut bearer,
        )
    })?;
    Ok(bearer)
}

/// Writes the filters that a template's operation makes of others, and says how many they are.
pub fn tft_apply(
    filters: &[TftFilter], operation: u8, entries: &[TftFilter], out: &mut [TftFilter],
) -> Result<usize, Refusal> {
    write_into!(gtp_c_tft_apply, out, filters.as_ptr(), filters.len(), operation, entries.as_ptr(), entries.len())
}

/// Reads a whole template: its operation, and how many entries it has, which stand at the front of `entries` as filters of
/// this bearer; of a removal their identifiers alone count.
pub fn tft_read(octets: &[u8], bearer: u8, entries: &mut [TftFilter]) -> Result<(u8, usize), Refusal> {
    let mut operation = 0;
    let count = write_into!(gtp_c_tft_read, entries, octets.as_ptr(), octets.len(), bearer, &mut operation)?;
    Ok((operation, count))
}

/// Looks the GTPv2-C message at the front of some octets through, with the elements that its type asks for.
pub fn gtpv2_check(octets: &[u8]) -> Result<(), Refusal> {
    let mut fault = c::Gtpv2Fault::default();
    // SAFETY: as in `gtpu_read`.
    match unsafe { c::gtp_c_gtpv2_check(octets.as_ptr(), octets.len(), &mut fault) } {
        10 => Err(Refusal::Missing { kind: fault.kind, instance: fault.instance }),
        11 => Err(Refusal::Incorrect { kind: fault.kind, instance: fault.instance }),
        code => done(code),
    }
}

/// A bucket that polices a maximum bit rate (TS 23.401, section 4.7.3).
#[derive(Clone, Copy, Debug, PartialEq, Eq)]
pub struct Policer(c::Policer);

impl Policer {
    /// A full bucket of a rate in kilobits a second, below 2^40, at moment 0.
    pub fn new(rate: u64) -> Result<Policer, Refusal> {
        let mut policer = c::Policer { rate: 0, level: 0, last: 0 };
        // SAFETY: as in `gtpu_read`.
        done(unsafe { c::gtp_c_policer_new(rate, &mut policer) })?;
        Ok(Policer(policer))
    }

    /// The bucket with these parts, as they were read of one: rate, level in millibits, moment of the last ask.
    pub fn of(rate: u64, level: u64, last: u64) -> Result<Policer, Refusal> {
        let policer = Policer(c::Policer { rate, level, last });
        // asking for nothing at the last moment changes nothing, and refuses what is no bucket
        let mut asked = policer;
        asked.ask(last, 0)?;
        Ok(policer)
    }

    /// Whether so many octets pass at a moment in microseconds, below 2^50 and not before the last one.
    pub fn ask(&mut self, at: u64, octets: u32) -> Result<bool, Refusal> {
        const POLICED: u32 = 28;
        // SAFETY: as in `gtpu_read`.
        match unsafe { c::gtp_c_policer_ask(&mut self.0, at, octets) } {
            POLICED => Ok(false),
            code => done(code).map(|()| true),
        }
    }

    /// Rate, level and moment of the last ask.
    pub fn parts(&self) -> (u64, u64, u64) {
        (self.0.rate, self.0.level, self.0.last)
    }
}

/// The counters of a piece of a bearer's charging record: below 1,000,000 octets.
#[derive(Clone, Copy, Debug, Default, PartialEq, Eq)]
pub struct Piece(c::Piece);

/// What a piece has counted, in one direction.
#[derive(Clone, Copy, Debug, PartialEq, Eq)]
pub struct Count {
    /// Octets.
    pub octets: u64,
    /// Packets.
    pub packets: u64,
}

impl Piece {
    /// Counts a packet of so many octets at a moment in microseconds, below 2^50; whether it filled the piece.
    pub fn count(&mut self, way: Way, octets: u32, at: u64) -> Result<bool, Refusal> {
        const FULL: u32 = 30;
        // SAFETY: as in `gtpu_read`.
        match unsafe { c::gtp_c_piece_count(&mut self.0, u32::from(way == Way::Up), octets, at) } {
            FULL => Ok(true),
            code => done(code).map(|()| false),
        }
    }

    /// Begins the next piece, once the row of this one is written.
    pub fn next(&mut self) -> Result<(), Refusal> {
        // SAFETY: as in `gtpu_read`.
        done(unsafe { c::gtp_c_piece_next(&mut self.0) })
    }

    /// How many pieces stand before it.
    pub fn seq(&self) -> u64 {
        self.0.seq
    }

    /// What it has counted up, and down.
    pub fn counts(&self) -> (Count, Count) {
        let up = Count { octets: self.0.up_octets, packets: self.0.up_packets };
        (up, Count { octets: self.0.down_octets, packets: self.0.down_packets })
    }

    /// The moments of its first and its last packet.
    pub fn moments(&self) -> Option<(u64, u64)> {
        (self.0.up_packets > 0 || self.0.down_packets > 0).then_some((self.0.first, self.0.last))
    }
}
