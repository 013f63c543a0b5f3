//! The listing of a log over felica-rs, as one would write it in Rust: a buffered reader, a line for each record, a buffered writer.
use crate::felica_rs::felica_standard::FelicaStandardCommand as C;
use crate::rust_side;
use crate::values::Kind;
use std::io::{self, BufRead, BufReader, BufWriter, Write};

const MAX_RECORDS: u64 = 1_000_000;

#[derive(Default)]
struct Totals {
    records: u64,
    accepted: u64,
    refused: u64,
    blocks: u64,
}

pub fn run() -> bool {
    let log = BufReader::with_capacity(1 << 16, io::stdin().lock());
    let out = BufWriter::with_capacity(1 << 16, io::stdout().lock());
    list(log, out).is_ok()
}

fn list(mut log: impl BufRead, mut out: impl Write) -> io::Result<()> {
    let mut totals = Totals::default();
    let mut frame = [0; 255];
    while totals.records < MAX_RECORDS {
        let mut size = [0];
        if log.read(&mut size)? == 0 {
            break;
        }
        let frame = &mut frame[..size[0].into()];
        let had = read_up_to(&mut log, frame)?;
        if had < frame.len() {
            writeln!(out, "CUT {}", frame.len() - had)?;
            break;
        }
        totals.records += 1;
        list_frame(frame, &mut totals, &mut out)?;
    }
    if totals.records == MAX_RECORDS && !log.fill_buf()?.is_empty() {
        writeln!(out, "FULL")?;
    }
    let Totals { records, accepted, refused, blocks } = totals;
    writeln!(out, "TOTAL {records} {accepted} {refused} {blocks}")?;
    out.flush()
}

fn read_up_to(log: &mut impl BufRead, bytes: &mut [u8]) -> io::Result<usize> {
    let mut had = 0;
    while had < bytes.len() {
        match log.read(&mut bytes[had..])? {
            0 => break,
            more => had += more,
        }
    }
    Ok(had)
}

fn list_frame(frame: &[u8], totals: &mut Totals, out: &mut impl Write) -> io::Result<()> {
    let ordinal = totals.records;
    match C::parse_frame(frame) {
        Ok(command) => {
            let (code, codes, blocks) = (frame[1], listed_codes(&command), blocks(&command));
            totals.accepted += 1;
            totals.blocks += blocks as u64;
            let long = long_elements(frame, blocks);
            write!(out, "{ordinal} OK {code:02X} {} {blocks} {long} ", codes.len())?;
            let marks: Vec<u8> = codes.iter().copied().map(mark).collect();
            out.write_all(if marks.is_empty() { b"-" } else { &marks })?;
            out.write_all(b"\n")
        }
        Err(error) => {
            totals.refused += 1;
            let refusal = rust_side::refusal(&error, Kind::Frame, 0, frame);
            match refusal.code {
                Some(code) => writeln!(out, "{ordinal} NO {} {code:02X}", refusal.number),
                None => writeln!(out, "{ordinal} NO {} --", refusal.number),
            }
        }
    }
}

/// The areas of Authentication1 come before its services.
fn listed_codes(command: &C) -> Vec<u16> {
    match command {
        C::RequestService { service_codes, .. }
        | C::RequestServiceV2 { service_codes, .. }
        | C::ReadWithoutEncryption { service_codes, .. }
        | C::WriteWithoutEncryption { service_codes, .. } => service_codes.iter().map(|code| code.0).collect(),
        C::RequestBlockInformation { node_codes, .. }
        | C::RequestBlockInformationEx { node_codes, .. }
        | C::GetNodeProperty { node_codes, .. } => node_codes.clone(),
        C::Authentication1V2 { nodes, .. } => nodes.clone(),
        C::Authentication1 { areas, services, .. } => [areas.as_slice(), services].concat(),
        _ => Vec::new(),
    }
}

fn blocks(command: &C) -> usize {
    match command {
        C::ReadWithoutEncryption { block_list, .. } | C::WriteWithoutEncryption { block_list, .. } => block_list.len(),
        _ => 0,
    }
}

/// The system, an area, a service that needs no key, or one that needs one.
fn mark(code: u16) -> u8 {
    match code {
        0xFFFF => b's',
        _ if code & 0x3F <= 1 => b'a',
        _ if code & 1 == 1 => b'o',
        _ => b'k',
    }
}

/// How many of the elements are long, their first byte with bit 7 clear. felica-rs does not tell: they stand behind the service codes and their count.
fn long_elements(frame: &[u8], blocks: usize) -> usize {
    let (mut long, mut at) = (0, 12 + 2 * frame.get(10).map_or(0, |&codes| usize::from(codes)));
    for _ in 0..blocks {
        let is_long = frame[at] < 0x80;
        long += usize::from(is_long);
        at += if is_long { 3 } else { 2 };
    }
    long
}
