//! Answers each line of a table of calls that this crate knows, and compares with the answer that is given there:
//!     answers CALLS ANSWERS
//! or says what stands in a capture:
//!     answers CAPTURE
//! The tables are those of crates/check_calls; what it says is what wrappers/c's answers and capture say.
#![forbid(unsafe_code)]
use gtp_c::{Piece, Policer, Refusal, TftFilter, Way};
use std::fmt::Write;
use std::net::Ipv4Addr;

fn hex(octets: &[u8]) -> String {
    if octets.is_empty() {
        return "-".into();
    }
    octets.iter().map(|it| format!("{it:02x}")).collect()
}

fn octets_from(text: &str) -> Vec<u8> {
    if text == "-" {
        return Vec::new();
    }
    (0..text.len() / 2).map(|at| u8::from_str_radix(&text[2 * at..2 * at + 2], 16).unwrap_or(0)).collect()
}

/// The name of a refusal alone, as the tables have it.
fn name(refused: &Refusal) -> String {
    let text = format!("{refused:?}");
    text.split(' ').next().unwrap_or("").to_string()
}

fn fault(refused: &Refusal) -> String {
    format!("err {}", name(refused))
}

fn or_none<T: std::fmt::Display>(value: Option<T>) -> String {
    value.map_or("-".into(), |it| it.to_string())
}

fn gtpu(octets: &[u8]) -> String {
    match gtp_c::gtpu_read(octets) {
        Err(refused) => fault(&refused),
        Ok(it) => format!("ok {} {} {} {}", it.kind, it.teid, or_none(it.seq), hex(it.body)),
    }
}

fn ip(octets: &[u8]) -> String {
    match gtp_c::ip4_read(octets) {
        Err(refused) => fault(&refused),
        Ok(it) => format!(
            "ok {} {} {} {} {} {} {} {}", it.tos, it.protocol, u32::from(it.source), u32::from(it.destination),
            it.fragment_offset, or_none(it.ports.map(|(from, to)| format!("{from},{to}"))), or_none(it.spi), it.total_len
        ),
    }
}

fn ies(octets: &[u8]) -> String {
    let mut answer = String::from("ok");
    for element in gtp_c::elements(octets) {
        match element {
            Ok(it) => answer += &format!(" {}.{}.{}", it.kind, it.instance, hex(it.value)),
            Err(refused) => return fault(&refused),
        }
    }
    answer
}

/// What a call writes into just as much room as it says that it needs.
fn made(call: impl Fn(&mut [u8]) -> Result<usize, Refusal>) -> Result<Vec<u8>, Refusal> {
    match call(&mut []) {
        Err(Refusal::NoRoom { needed }) => {
            let mut out = vec![0; needed];
            let len = call(&mut out)?;
            out.truncate(len);
            Ok(out)
        }
        Err(refused) => Err(refused),
        Ok(_) => Ok(Vec::new()),
    }
}

fn gtpv2(octets: &[u8]) -> String {
    let checked = gtp_c::gtpv2_check(octets);
    let walked = gtp_c::gtpv2_head(octets).and_then(|it| gtp_c::elements(it.elements).try_for_each(|e| e.map(|_| ())));
    let whole = matches!(checked, Ok(()) | Err(Refusal::Missing { .. } | Refusal::Incorrect { .. }));
    if walked.is_ok() != whole {
        return "elements end otherwise".into();
    }
    let Err(refused) = checked else { return "ok".into() };
    let element = match refused {
        Refusal::Missing { kind, instance } | Refusal::Incorrect { kind, instance } => format!(" {kind} {instance}"),
        _ => String::new(),
    };
    let reply = made(|out| gtp_c::gtpv2_refusal(octets, refused, out)).unwrap_or_default();
    format!("{}{element} {}", fault(&refused), hex(&reply))
}

/// The value of an element; None where no call knows its type.
fn value(kind: u8, octets: &[u8]) -> Option<String> {
    let found = match kind {
        1 => gtp_c::imsi(octets).map(|it| format!("{it:?}")),
        2 => gtp_c::cause(octets).map(|it| format!("Cause(CauseIe {{ cause: {}, offending: {:?} }})", it.cause, it.offending)),
        3 => gtp_c::recovery(octets).map(|it| format!("Recovery({it})")),
        72 => gtp_c::ambr(octets).map(|it| format!("Ambr({}, {})", it.up, it.down)),
        73 => gtp_c::ebi(octets).map(|it| format!("Ebi({it})")),
        79 => gtp_c::paa(octets).map(|it| format!("Paa({})", u32::from(it))),
        80 => gtp_c::bearer_qos(octets).map(|it| {
            format!("Qos(QosIe {{ arp: {}, qci: {}, mbr_up: {}, mbr_down: {}, gbr_up: {}, gbr_down: {} }})", it.arp, it.qci,
                it.mbr_up, it.mbr_down, it.gbr_up, it.gbr_down)
        }),
        82 => gtp_c::rat_type(octets).map(|it| format!("Rat({it})")),
        87 => gtp_c::fteid(octets).map(|it| {
            format!("Fteid(Fteid {{ interface: {}, teid: {}, addr: {} }})", it.interface, it.teid, u32::from(it.address))
        }),
        99 => gtp_c::pdn_type(octets).map(|it| format!("Pdn({it})")),
        _ => return None,
    };
    Some(found.unwrap_or("none".into()))
}

/// The filter's text, as a template has it.
fn filter_text(filter: &TftFilter) -> String {
    let mut text = Vec::new();
    for it in &filter.components[..usize::from(filter.count)] {
        let (first, second) = (it.first.to_be_bytes(), it.second.to_be_bytes());
        text.push(it.kind);
        match it.kind {
            0x10 | 0x11 => text.extend([first, second].concat()),
            0x30 => text.push(first[3]),
            0x60 => text.extend(first),
            0x70 => text.extend([first[3], second[3]]),
            0x41 | 0x51 => text.extend([first[2], first[3], second[2], second[3]]),
            _ => text.extend([first[2], first[3]]),
        }
    }
    hex(&[&[16 * filter.direction + filter.id, filter.precedence, text.len() as u8][..], &text].concat())
}

/// A template read into just as much room as it needs: its operation and its entries.
fn template(octets: &[u8], bearer: u8) -> Result<(u8, Vec<TftFilter>), Refusal> {
    let mut entries = Vec::new();
    match gtp_c::tft_read(octets, bearer, &mut entries) {
        Err(Refusal::NoRoom { needed }) => entries = vec![TftFilter::default(); needed],
        Err(refused) => return Err(refused),
        Ok((operation, _)) => return Ok((operation, entries)),
    }
    let (operation, _) = gtp_c::tft_read(octets, bearer, &mut entries)?;
    Ok((operation, entries))
}

fn tft(octets: &[u8]) -> String {
    match template(octets, 0) {
        Err(refused) => fault(&refused),
        Ok((operation, entries)) => {
            let each = |it: &TftFilter| if operation == 5 { format!("{:02x}", it.id) } else { filter_text(it) };
            format!("ok {:02x}{}", 32 * usize::from(operation) + entries.len(), entries.iter().map(each).collect::<String>())
        }
    }
}

/// The filters behind templates, joined by commas, and what each answered.
fn filters_of(templates: &str, bearer: u8) -> (Vec<TftFilter>, Vec<String>) {
    let (mut filters, mut said) = (Vec::new(), Vec::new());
    for text in templates.split(',') {
        let mut out = [TftFilter::default(); 31];
        let applied = template(&octets_from(text), bearer)
            .and_then(|(operation, entries)| gtp_c::tft_apply(&filters, operation, &entries, &mut out));
        said.push(match applied {
            Ok(count) => {
                filters = out[..count].to_vec();
                "ok".into()
            }
            Err(refused) => name(&refused),
        });
    }
    (filters, said)
}

fn apply(templates: &str) -> String {
    let (filters, said) = filters_of(templates, 0);
    format!("{} ={}", said.join(" "), filters.iter().map(|it| format!(" {}", filter_text(it))).collect::<String>())
}

fn fits(rest: &str) -> Option<String> {
    let [way, templates, packet] = rest.split(' ').collect::<Vec<_>>()[..] else { return None };
    let way = if way == "up" { Way::Up } else { Way::Down };
    let octets = octets_from(packet);
    if let Err(refused) = gtp_c::ip4_read(&octets) {
        return Some(fault(&refused));
    }
    let each = |it: &TftFilter| gtp_c::tft_fits(it, way, &octets).map_or("?", |fits| if fits { "1" } else { "0" });
    Some(format!("fits {}", filters_of(templates, 0).0.iter().map(each).collect::<String>()))
}

fn choose(rest: &str) -> Option<String> {
    let mut words = rest.split(' ');
    let octets = octets_from(words.next()?);
    let (mut filters, mut has_default) = (Vec::new(), false);
    while let Some(bearer) = words.next() {
        let bearer = bearer.parse().ok()?;
        let templates = words.next().unwrap_or(".");
        let more = if templates == "." { Vec::new() } else { filters_of(templates, bearer).0 };
        has_default |= bearer == 0 && more.is_empty();
        filters.extend(more);
    }
    Some(match gtp_c::tft_choose(&filters, has_default, &octets) {
        Ok(bearer) => bearer.to_string(),
        Err(Refusal::NoBearer) => "none".into(),
        Err(refused) => fault(&refused),
    })
}

fn asks(policer: &mut Policer, words: &[u64], between: &str) -> String {
    words.chunks(2).map(|ask| match policer.ask(ask[0], ask[1] as u32) {
        Ok(passes) => format!("{}{between}", u8::from(passes)),
        Err(refused) => format!("{}{between}", name(&refused)),
    }).collect()
}

fn numbers(rest: &str) -> Vec<u64> {
    rest.split(' ').filter_map(|it| it.parse().ok()).collect()
}

fn police(words: &[u64]) -> String {
    match Policer::new(words[0]) {
        Ok(mut policer) => asks(&mut policer, &words[1..], ""),
        Err(_) => "range".into(),
    }
}

fn bucket(words: &[u64]) -> String {
    let Ok(mut policer) = Policer::of(words[0], words[1], words[2]) else { return "none".into() };
    let answers = asks(&mut policer, &words[3..], " ");
    let (rate, level, last) = policer.parts();
    format!("{answers}{rate} {level} {last}")
}

fn counts(piece: &Piece) -> String {
    let (up, down) = piece.counts();
    format!("{}.{}.{}.{}.{}", piece.seq(), up.octets, down.octets, up.packets, down.packets)
}

/// One bearer's record: the rows of its pieces, and the open one. None where the line has more than that.
fn book(rest: &str) -> Option<String> {
    let (mut piece, mut whose, mut rows) = (Piece::default(), None, String::new());
    for step in rest.split(' ') {
        let parts: Vec<&str> = step.split('.').collect();
        let life: u64 = parts.get(1)?.parse().ok()?;
        if parts[0] == "s" {
            if whose.is_some() || life > 1 << 61 {
                return None;
            }
            whose = Some((life, format!("{life}.{}.{}", parts[2], parts[3])));
            continue;
        }
        if whose.as_ref()?.0 != life {
            return None;
        }
        let why = match parts[0] {
            "u" | "d" => {
                let way = if parts[0] == "u" { Way::Up } else { Way::Down };
                if !piece.count(way, parts[2].parse().ok()?, parts[3].parse().ok()?).ok()? {
                    continue;
                }
                "Volume"
            }
            "v" => "Volume",
            "q" => "Qos",
            _ => return None,
        };
        let moments = piece.moments().map_or("-.-".into(), |(first, last)| format!("{first}.{last}"));
        write!(rows, "{}.{}.{moments}.{why} ", whose.as_ref()?.1, counts(&piece)).ok()?;
        piece.next().ok()?;
    }
    Some(format!("{rows}= {}.{}", whose?.1, counts(&piece)))
}

fn send(rest: &str) -> Option<String> {
    let words: Vec<&str> = rest.split(' ').collect();
    let number = |at: usize| words.get(at).and_then(|it| it.parse::<u32>().ok()).unwrap_or(0);
    let (mut head, mut body) = (Vec::new(), Vec::new());
    let sent = match words[0] {
        "echo" => made(|out| gtp_c::echo_request(number(1) as u16, out)),
        "answer" => made(|out| gtp_c::echo_response(number(1) as u16, out)),
        "error" => made(|out| gtp_c::error_indication(number(1) as u16, number(2), Ipv4Addr::from(number(3)), out)),
        "end" => made(|out| gtp_c::end_marker(number(1), out)),
        _ => {
            body = octets_from(words.get(2)?);
            made(|out| gtp_c::gpdu_head(number(1), body.len(), out))
        }
    };
    head.extend(sent.ok()?);
    head.extend(body);
    Some(hex(&head))
}

/// None where this crate doesn't know the call.
fn answered(call: &str, rest: &str) -> Option<String> {
    Some(match call {
        "gtpu" => gtpu(&octets_from(rest)),
        "gtpv2" => gtpv2(&octets_from(rest)),
        "ies" => ies(&octets_from(rest)),
        "ip" => ip(&octets_from(rest)),
        "tft" => tft(&octets_from(rest)),
        "value" => {
            let (kind, text) = rest.split_once(' ')?;
            return value(kind.parse().ok()?, &octets_from(text));
        }
        "apply" => apply(rest),
        "match" => return fits(rest),
        "choose" => return choose(rest),
        "police" => police(&numbers(rest)),
        "bucket" => bucket(&numbers(rest)),
        "book" => return book(rest),
        "send" => return send(rest),
        _ => return None,
    })
}

fn elements(octets: &[u8]) -> String {
    gtp_c::elements(octets).map_while(Result::ok).map(|it| {
        let inside = if it.kind == 93 { format!(" [{} ]", elements(it.value)) } else { String::new() };
        format!(" {}.{}+{}{inside}", it.kind, it.instance, it.value.len())
    }).collect()
}

fn packet(octets: &[u8]) {
    let it = match gtp_c::ip4_read(octets) {
        Ok(it) => it,
        Err(refused) => return println!("no packet: {refused}"),
    };
    let (from, to) = it.ports.unwrap_or((0, 0));
    println!("packet {} octets, protocol {}, {:#x} to {:#x}, ports {from} {to}", it.total_len, it.protocol,
        u32::from(it.source), u32::from(it.destination));
    if it.protocol != 17 || it.total_len < 28 {
        return;
    }
    let inner = &octets[28..usize::from(it.total_len)];
    match to {
        2152 => match gtp_c::gtpu_read(inner) {
            Ok(it) => {
                print!("  GTP-U {}, TEID {}: ", it.kind, it.teid);
                packet(it.body);
            }
            Err(refused) => println!("  GTP-U refused: {refused}"),
        },
        2123 => match gtp_c::gtpv2_head(inner) {
            Ok(it) => println!("  GTPv2-C {}, TEID {}, number {}:{}", it.kind, it.teid.unwrap_or(0), it.seq, elements(it.elements)),
            Err(refused) => println!("  GTPv2-C refused: {refused}"),
        },
        _ => {}
    }
}

/// Says each packet of a capture of link type 101.
fn capture(octets: &[u8]) {
    let big = octets.first() == Some(&0xa1);
    let mut rest = octets.get(24..).unwrap_or(&[]);
    while let Some((head, behind)) = rest.split_at_checked(16) {
        let len = [head[8], head[9], head[10], head[11]];
        let len = if big { u32::from_be_bytes(len) } else { u32::from_le_bytes(len) } as usize;
        let Some((record, next)) = behind.split_at_checked(len) else { return };
        packet(record);
        rest = next;
    }
}

fn main() {
    let arguments: Vec<String> = std::env::args().skip(1).collect();
    let read = |name: &String| std::fs::read(name).unwrap_or_else(|why| {
        eprintln!("answers: {name}: {why}");
        std::process::exit(2)
    });
    let [calls, answers] = match &arguments[..] {
        [name] => return capture(&read(name)),
        [calls, answers] => [calls, answers].map(|it| String::from_utf8_lossy(&read(it)).into_owned()),
        _ => {
            eprintln!("usage: answers CALLS ANSWERS, or answers CAPTURE");
            std::process::exit(2)
        }
    };
    let (mut done, mut differ): (Vec<(&str, u32)>, u32) = (Vec::new(), 0);
    for (line, given) in calls.lines().zip(answers.lines()).filter(|(_, given)| *given != "no call") {
        let Some((call, rest)) = line.split_once(' ') else { continue };
        let Some(answer) = answered(call, rest) else { continue };
        match done.iter_mut().find(|(kind, _)| *kind == call) {
            Some((_, count)) => *count += 1,
            None => done.push((call, 1)),
        }
        // a whole message isn't written again
        let given = if call == "gtpv2" && given.starts_with("ok ") { "ok" } else { given };
        if answer != given {
            differ += 1;
            println!("{line}: {answer}, not {given}");
        }
    }
    for (call, count) in done {
        println!("{call} {count}");
    }
    println!("differ {differ}");
    std::process::exit(i32::from(differ != 0));
}
