//! Expected values are derived by hand from document 01: its layouts, its table of grounds, its rules for list reader
//! and writer.

use felica::{
    Buffers, Command, Ground, Handed, MAX_BLOCKS, MAX_CODES, MAX_FRAME, Parsed, Part, Refusal, list_frame,
    list_payload, list_secure_payload, parse_frame, parse_payload, parse_secure_payload, write,
};

const HEADER: &str = include_str!("../../../include/felica.h");

const I8: [u8; 8] = [1, 2, 3, 4, 5, 6, 7, 8];

/// Bytes of hexadecimal text; `I8` in it stands for the IDm of document 01.
fn bytes(text: &str) -> Vec<u8> {
    let text = text.replace("I8", "01 02 03 04 05 06 07 08");
    text.split_whitespace().map(|pair| u8::from_str_radix(pair, 16).unwrap()).collect()
}

fn refusal<T>(number: u8, code: impl Into<Option<u8>>) -> Result<T, Refusal> {
    Err(Refusal { ground: Ground::from_number(number).unwrap(), code: code.into() })
}

fn part(start: usize, count: usize) -> Part {
    Part { start, count }
}

/// A command with so many long elements.
fn with_long(long: u16, command: Command) -> Result<Parsed, Refusal> {
    Ok(Parsed { command, long })
}

/// A command with no long element.
fn short(command: Command) -> Result<Parsed, Refusal> {
    with_long(0, command)
}

/// The five buffers of the list reader, filled with values that none of the lists here has.
#[derive(Clone, Debug, PartialEq)]
struct Owned {
    first: Vec<u16>,
    second: Vec<u16>,
    numbers: Vec<u16>,
    places: Vec<u8>,
    modes: Vec<u8>,
}

impl Owned {
    fn new([first, second, numbers, places, modes]: [usize; 5]) -> Owned {
        Owned {
            first: vec![0xAAAA; first],
            second: vec![0xBBBB; second],
            numbers: vec![0xCCCC; numbers],
            places: vec![0xDD; places],
            modes: vec![0xEE; modes],
        }
    }

    fn lend(&mut self) -> Buffers<'_> {
        Buffers {
            first: &mut self.first,
            second: &mut self.second,
            numbers: &mut self.numbers,
            places: &mut self.places,
            modes: &mut self.modes,
        }
    }
}

#[test]
fn polling_has_the_system_code_high_byte_first() {
    let expected = Command { code: 0x00, number: 0x1234, option: 0x01, choice: 0x0F, ..Command::default() };
    assert_eq!(parse_frame(&bytes("06 00 12 34 01 0F")), short(expected));
}

#[test]
fn a_read_has_its_lists_as_parts_of_the_payload() {
    let expected = Command { code: 0x06, idm: I8, first: part(10, 1), block_list: part(13, 1), ..Command::default() };
    let frame = bytes("10 06 I8 01 0B 10 01 80 00");
    assert_eq!(parse_frame(&frame), short(expected));
    assert_eq!(parse_payload(&frame[1..]), short(expected));
}

#[test]
fn a_write_has_its_data_behind_short_and_long_elements() {
    let frame = bytes(
        "33 08 I8 01 09 10 02 80 05 00 00 01
         00 01 02 03 04 05 06 07 08 09 0A 0B 0C 0D 0E 0F 10 11 12 13 14 15 16 17 18 19 1A 1B 1C 1D 1E 1F",
    );
    let expected = Command {
        code: 0x08,
        idm: I8,
        first: part(10, 1),
        block_list: part(13, 2),
        data: part(18, 32),
        ..Command::default()
    };
    assert_eq!(parse_frame(&frame), with_long(1, expected));
    assert_eq!(frame[1 + 18], 0x00);
    assert_eq!(frame[1 + 18 + 31], 0x1F);
}

#[test]
fn authentications_have_their_challenge() {
    let mut challenge = [0; 16];
    challenge[..8].copy_from_slice(&bytes("81 82 83 84 85 86 87 88"));
    let expected =
        Command { code: 0x10, idm: I8, challenge, first: part(10, 0), second: part(11, 1), ..Command::default() };
    assert_eq!(parse_frame(&bytes("16 10 I8 00 01 09 10 81 82 83 84 85 86 87 88")), short(expected));

    challenge[8..].copy_from_slice(&bytes("89 8A 8B 8C 8D 8E 8F 90"));
    let expected = Command { code: 0x40, idm: I8, challenge, selector: 0x7F, first: part(11, 1), ..Command::default() };
    let frame = bytes("1E 40 I8 7F 01 34 12 81 82 83 84 85 86 87 88 89 8A 8B 8C 8D 8E 8F 90");
    assert_eq!(parse_frame(&frame), short(expected));
}

#[test]
fn fixed_fields_stand_in_their_places() {
    let code = |code: u8| Command { code, idm: I8, ..Command::default() };
    assert_eq!(
        parse_frame(&bytes("0E 1A I8 34 12 02 01")),
        short(Command { number: 0x1234, index: 0x0102, ..code(0x1A) })
    );
    assert_eq!(
        parse_frame(&bytes("12 20 I8 00 00 00 00 01 00 00 00")),
        short(Command { option: 1, choice: 0, ..code(0x20) })
    );
    assert_eq!(
        parse_frame(&bytes("12 20 I8 00 00 00 00 00 01 00 00")),
        short(Command { option: 0, choice: 1, ..code(0x20) })
    );
    assert_eq!(
        parse_frame(&bytes("0E 28 I8 01 01 34 12")),
        short(Command { selector: 1, first: part(11, 1), ..code(0x28) })
    );
    assert_eq!(parse_frame(&bytes("04 2E 01 02")), short(Command { idm: [0; 8], number: 0x0201, ..code(0x2E) }));
    assert_eq!(parse_frame(&bytes("04 70 00 00")), short(Command { idm: [0; 8], ..code(0x70) }));
    assert_eq!(parse_frame(&bytes("0A 04 I8")), short(code(0x04)));
}

#[test]
fn each_ground_refuses_its_example() {
    let without_code = [(1, ""), (2, "02"), (3, "01")];
    for (number, frame) in without_code {
        assert_eq!(parse_frame(&bytes(frame)), refusal(number, None), "{frame}");
    }
    let with_code = [
        (4, 0x14, "02 14"),
        (5, 0x01, "02 01"),
        (6, 0x04, "02 04"),
        (7, 0x00, "02 00"),
        (8, 0x04, "0B 04 I8 00"),
        (8, 0x00, "07 00 FF FF 03 00 00"),
        (9, 0x02, "0A 02 I8"),
        (10, 0x02, "0B 02 I8 00"),
        (11, 0x06, "0D 06 I8 01 0B 10"),
        (12, 0x06, "0E 06 I8 01 0B 10 00"),
        (13, 0x02, "0B 02 I8 01"),
        (14, 0x06, "0E 06 I8 01 0B 10 01"),
        (15, 0x06, "0F 06 I8 01 0B 10 01 80"),
        (16, 0x06, "10 06 I8 01 0B 10 01 00 05"),
        (17, 0x08, "10 08 I8 01 09 10 01 80 00"),
        (18, 0x70, "04 70 00 01"),
        (19, 0x00, "06 00 FF FF 03 00"),
        (20, 0x00, "06 00 FF FF 00 02"),
    ];
    for (number, code, frame) in with_code {
        assert_eq!(parse_frame(&bytes(frame)), refusal(number, code), "{frame}");
    }
    assert_eq!(parse_payload(&[]), refusal(3, None));
}

#[test]
fn a_payload_may_be_longer_than_a_frame() {
    let mut payload = bytes("08 I8 01 09 10 FF");
    payload.extend([0x80, 0x00].repeat(255));
    payload.extend([0x5A; 4080]);
    let expected = Command {
        code: 0x08,
        idm: I8,
        first: part(10, 1),
        block_list: part(13, 255),
        data: part(523, 4080),
        ..Command::default()
    };
    assert_eq!(parse_payload(&payload), short(expected));
}

#[test]
fn secure_payloads_have_no_code_byte() {
    let expected = Command { code: 0x14, block_list: part(1, 1), ..Command::default() };
    assert_eq!(parse_secure_payload(0x14, &bytes("01 80 05")), short(expected));
    assert_eq!(parse_secure_payload(0x14, &bytes("01 80 05 AA BB")), short(expected));

    let challenge: [u8; 16] = std::array::from_fn(|i| i as u8 + 1);
    let expected = Command { code: 0x80, challenge, package: part(16, 2), ..Command::default() };
    let payload = bytes("01 02 03 04 05 06 07 08 09 0A 0B 0C 0D 0E 0F 10 77 78");
    assert_eq!(parse_secure_payload(0x80, &payload), short(expected));

    let expected = Command { code: 0x82, number: 0x1234, package: part(2, 0), ..Command::default() };
    assert_eq!(parse_secure_payload(0x82, &bytes("34 12")), short(expected));
    assert_eq!(parse_secure_payload(0x8E, &[]), short(Command { code: 0x8E, ..Command::default() }));
}

#[test]
fn secure_payloads_are_refused_on_their_grounds() {
    assert_eq!(parse_secure_payload(0x04, &I8), refusal(5, 0x04));
    assert_eq!(parse_secure_payload(0x14, &[]), refusal(9, 0x14));
    assert_eq!(parse_secure_payload(0x14, &[0]), refusal(10, 0x14));
    assert_eq!(parse_secure_payload(0x16, &bytes("01 80 05 00")), refusal(17, 0x16));
    assert_eq!(parse_secure_payload(0x80, &[0; 15]), refusal(7, 0x80));
    assert_eq!(parse_secure_payload(0x8E, &[0]), refusal(8, 0x8E));
}

#[test]
fn the_list_reader_fills_the_front_of_its_buffers() {
    // F1: short, access mode 7, place 1. 2F: long, access mode 2, place 15.
    let frame = bytes("17 06 I8 02 0B 10 09 11 03 F1 FF 2F 00 01 80 00");
    let mut owned = Owned::new([3, 1, 4, 3, 5]);
    let parsed = list_frame(&frame, owned.lend());
    assert_eq!(parsed, parse_frame(&frame));
    let expected = Command { code: 0x06, idm: I8, first: part(10, 2), block_list: part(15, 3), ..Command::default() };
    assert_eq!(parsed, with_long(1, expected));
    let expected = Owned {
        first: vec![0x100B, 0x1109, 0xAAAA],
        second: vec![0xBBBB],
        numbers: vec![0x00FF, 0x0100, 0x0000, 0xCCCC],
        places: vec![1, 15, 0],
        modes: vec![7, 2, 0, 0xEE, 0xEE],
    };
    assert_eq!(owned, expected);

    let mut owned = Owned::new([3, 1, 4, 3, 5]);
    assert_eq!(list_payload(&frame[1..], owned.lend()), parsed);
    assert_eq!(owned, expected);
}

#[test]
fn the_list_reader_reads_two_code_lists() {
    let frame = bytes("18 10 I8 01 00 00 01 09 10 81 82 83 84 85 86 87 88");
    let mut owned = Owned::new([1, 2, 0, 0, 0]);
    assert_eq!(list_frame(&frame, owned.lend()), parse_frame(&frame));
    assert_eq!(owned, Owned { first: vec![0], second: vec![0x1009, 0xBBBB], ..Owned::new([0; 5]) });
}

#[test]
fn the_list_reader_reads_secure_payloads() {
    let payload = bytes("02 80 05 15 FF FF AA");
    let mut owned = Owned::new([0, 0, 2, 2, 2]);
    let parsed = list_secure_payload(0x44, &payload, owned.lend());
    assert_eq!(parsed, with_long(1, Command { code: 0x44, block_list: part(1, 2), ..Command::default() }));
    let lists = (&owned.numbers[..], &owned.places[..], &owned.modes[..]);
    assert_eq!(lists, (&[5, 0xFFFF][..], &[0, 5][..], &[0, 1][..]));
}

#[test]
fn a_buffer_too_short_is_21_and_all_five_are_as_they_were() {
    let read = bytes("13 06 I8 02 0B 10 09 11 01 00 00 01");
    let authentication = bytes("18 10 I8 01 00 00 01 09 10 81 82 83 84 85 86 87 88");
    assert!(parse_frame(&read).is_ok() && parse_frame(&authentication).is_ok());
    let cases = [
        (0x06, &read, [1, 9, 9, 9, 9]),
        (0x06, &read, [9, 9, 0, 9, 9]),
        (0x06, &read, [9, 9, 9, 0, 9]),
        (0x06, &read, [9, 9, 9, 9, 0]),
        (0x10, &authentication, [0, 9, 9, 9, 9]),
        (0x10, &authentication, [9, 0, 9, 9, 9]),
    ];
    for (code, frame, lengths) in cases {
        let mut owned = Owned::new(lengths);
        assert_eq!(list_frame(frame, owned.lend()), refusal(21, code), "{lengths:?}");
        assert_eq!(owned, Owned::new(lengths));
    }
}

#[test]
fn the_list_reader_gives_the_parsers_refusal_first() {
    let frame = bytes("10 06 I8 01 0B 10 01 00 05");
    for lengths in [[0; 5], [9; 5]] {
        let mut owned = Owned::new(lengths);
        assert_eq!(list_frame(&frame, owned.lend()), refusal(16, 0x06));
        assert_eq!(owned, Owned::new(lengths));
    }
}

fn read_of(numbers: &[u16]) -> Handed<'_> {
    Handed { code: 0x06, idm: I8, first: &[0x100B], numbers, places: &[0], modes: &[0], ..Handed::default() }
}

#[test]
fn block_255_is_written_short_and_256_long() {
    let short = bytes("10 06 I8 01 0B 10 01 80 FF");
    let mut out = vec![0; 16];
    assert_eq!(write(&read_of(&[255]), &mut out), Ok(16));
    assert_eq!(out, short);

    let long = bytes("11 06 I8 01 0B 10 01 00 00 01");
    let mut out = vec![0; 17];
    assert_eq!(write(&read_of(&[256]), &mut out), Ok(17));
    assert_eq!(out, long);
}

#[test]
fn bytes_behind_what_is_written_keep_their_values() {
    let mut out = [0x5A; 20];
    assert_eq!(write(&read_of(&[0]), &mut out), Ok(16));
    assert_eq!(out[..16], bytes("10 06 I8 01 0B 10 01 80 00"));
    assert_eq!(out[16..], [0x5A; 4]);
}

#[test]
fn a_buffer_shorter_than_the_shortest_form_is_21() {
    for (number, length) in [(255, 15), (256, 16), (0, 0)] {
        let mut out = vec![0x5A; length];
        assert_eq!(write(&read_of(&[number]), &mut out), refusal(21, 0x06));
        assert_eq!(out, vec![0x5A; length]);
    }
}

#[test]
fn what_no_frame_gives_is_22_and_precedes_21() {
    let read = read_of(&[0]);
    let polling = Handed { number: 0xFFFF, ..Handed::default() };
    let unwritable = [
        Handed { option: 3, ..polling },
        Handed { choice: 2, ..polling },
        Handed { idm: I8, ..polling },
        Handed { code: 0x01, ..Handed::default() },
        Handed { first: &[], ..read },
        Handed { first: &[0; 17], ..read },
        Handed { second: &[0x100B], ..read },
        Handed { places: &[], ..read },
        Handed { modes: &[0, 0], ..read },
        Handed { places: &[16], ..read },
        Handed { modes: &[8], ..read },
        Handed { data: &[0; 16], ..read },
        Handed { package: &[0], ..read },
        Handed { index: 1, ..read },
        Handed { code: 0x08, data: &[0; 15], ..read },
        Handed { code: 0x14, numbers: &[], places: &[], modes: &[], ..Handed::default() },
    ];
    for command in unwritable {
        for length in [0, 600] {
            let mut out = vec![0x5A; length];
            assert_eq!(write(&command, &mut out), refusal(22, command.code), "{command:?}");
            assert_eq!(out, vec![0x5A; length]);
        }
    }
}

#[test]
fn a_frame_over_255_bytes_is_22() {
    // 13 blocks: 1 + 1 + 8 + 3 + 1 + 13 * 2 + 13 * 16 = 248 bytes. 14 would be 266.
    let write_of = |blocks: usize, out: &mut [u8]| {
        let handed = Handed {
            code: 0x08,
            idm: I8,
            first: &[0x1009],
            numbers: &[0; 14][..blocks],
            places: &[0; 14][..blocks],
            modes: &[0; 14][..blocks],
            data: &[0; 224][..16 * blocks],
            ..Handed::default()
        };
        write(&handed, out)
    };
    let mut out = [0; 300];
    assert_eq!(write_of(13, &mut out), Ok(248));
    assert_eq!(out[0], 248);
    assert_eq!(write_of(14, &mut out), refusal(22, 0x08));
}

#[test]
fn a_secure_command_is_written_as_its_payload() {
    let data: [u8; 16] = std::array::from_fn(|i| i as u8);
    let command = Handed { code: 0x46, numbers: &[7], places: &[2], modes: &[3], data: &data, ..Handed::default() };
    let mut out = [0x5A; 20];
    assert_eq!(write(&command, &mut out), Ok(19));
    assert_eq!(out[..3], [0x01, 0xB2, 0x07]);
    assert_eq!(out[3..19], data);
    assert_eq!(out[19], 0x5A);

    let command = Handed { code: 0x84, number: 0x1234, package: &[9, 8], ..Handed::default() };
    let mut out = [0; 4];
    assert_eq!(write(&command, &mut out), Ok(4));
    assert_eq!(out, [0x34, 0x12, 9, 8]);
}

/// Lists `payload` by `list`, writes the command back and gives the bytes.
fn written_back(payload: &[u8], list: impl Fn(Buffers<'_>) -> Result<Parsed, Refusal>) -> Vec<u8> {
    let mut owned = Owned::new([MAX_CODES, MAX_CODES, MAX_BLOCKS, MAX_BLOCKS, MAX_BLOCKS]);
    let command = list(owned.lend()).unwrap().command;
    let blocks = command.block_list.count;
    let bytes_of = |part: Part| &payload[part.start..part.start + part.count];
    let handed = Handed {
        code: command.code,
        idm: command.idm,
        challenge: command.challenge,
        selector: command.selector,
        number: command.number,
        index: command.index,
        option: command.option,
        choice: command.choice,
        first: &owned.first[..command.first.count],
        second: &owned.second[..command.second.count],
        numbers: &owned.numbers[..blocks],
        places: &owned.places[..blocks],
        modes: &owned.modes[..blocks],
        data: bytes_of(command.data),
        package: bytes_of(command.package),
    };
    let mut out = vec![0; 300];
    let length = write(&handed, &mut out).unwrap();
    out.truncate(length);
    out
}

#[test]
fn what_was_listed_is_written_back() {
    let frames = [
        "06 00 12 34 01 0F",
        "0D 02 I8 01 0B 10",
        "0A 04 I8",
        "17 06 I8 02 0B 10 09 11 03 F1 FF 2F 00 01 80 00",
        "20 08 I8 01 09 10 01 80 05 00 01 02 03 04 05 06 07 08 09 0A 0B 0C 0D 0E 0F",
        "0C 0A I8 34 12",
        "18 10 I8 01 00 00 01 09 10 81 82 83 84 85 86 87 88",
        "0E 1A I8 34 12 02 01",
        "12 20 I8 00 00 00 00 01 01 00 00",
        "0E 28 I8 01 01 34 12",
        "04 2E 01 02",
        "1E 40 I8 7F 01 34 12 81 82 83 84 85 86 87 88 89 8A 8B 8C 8D 8E 8F 90",
        "1A 42 I8 81 82 83 84 85 86 87 88 89 8A 8B 8C 8D 8E 8F 90",
        "04 70 00 00",
    ];
    for text in frames {
        let frame = bytes(text);
        let back = written_back(&frame[1..], |buffers| list_frame(&frame, buffers));
        assert_eq!(back, frame, "{text}");
        assert_eq!(parse_frame(&back), parse_frame(&frame));
    }
}

#[test]
fn long_forms_and_tails_are_not_written_back() {
    let frame = bytes("11 06 I8 01 0B 10 01 00 FF 00");
    let back = written_back(&frame[1..], |buffers| list_frame(&frame, buffers));
    assert_eq!(back, bytes("10 06 I8 01 0B 10 01 80 FF"));
    let (long, short) = (parse_frame(&frame).unwrap(), parse_frame(&back).unwrap());
    assert_eq!(long.command, short.command);
    assert_eq!((long.long, short.long), (1, 0));

    let payload = bytes("01 80 05 AA BB");
    let back = written_back(&payload, |buffers| list_secure_payload(0x14, &payload, buffers));
    assert_eq!(back, bytes("01 80 05"));
}

/// The lines of the header, with one space between words.
fn header_lines() -> Vec<String> {
    HEADER.lines().map(|line| line.split_whitespace().collect::<Vec<_>>().join(" ")).collect()
}

/// `LongBlockNumberMissing` as `FELICA_LONG_BLOCK_NUMBER_MISSING`.
fn name_in_c(name: &str) -> String {
    let mut in_c = String::from("FELICA");
    for letter in name.chars() {
        if letter.is_uppercase() {
            in_c.push('_');
        }
        in_c.push(letter.to_ascii_uppercase());
    }
    in_c
}

#[test]
fn grounds_have_the_names_numbers_and_texts_of_the_header() {
    let lines = header_lines();
    for ground in Ground::ALL {
        let start = format!("{} = {}", name_in_c(&format!("{ground:?}")), ground.number());
        let is_there = |line: &String| {
            let comment = line.strip_prefix(&start).map(|rest| rest.trim_start_matches(',').trim_start());
            let text = comment.and_then(|comment| comment.strip_prefix(&format!("/* {ground}")));
            text.is_some_and(|rest| rest == " */" || rest.starts_with(';'))
        };
        assert_eq!(lines.iter().filter(|line| is_there(line)).count(), 1, "{start}: {ground}");
    }
}

#[test]
fn each_number_from_1_to_22_is_that_of_one_ground() {
    for (number, ground) in (1..).zip(Ground::ALL) {
        assert_eq!(ground.number(), number);
        assert_eq!(Ground::from_number(number), Some(ground));
    }
    assert_eq!([0, 23, 255].map(Ground::from_number), [None; 3]);
}

#[test]
fn limits_and_version_are_those_of_the_header() {
    let lines = header_lines();
    let defined = [
        format!("FELICA_MAX_FRAME = {MAX_FRAME},"),
        format!("FELICA_MAX_CODES = {MAX_CODES},"),
        format!("FELICA_MAX_BLOCKS = {MAX_BLOCKS} "),
        format!("#define FELICA_VERSION_MAJOR {}", env!("CARGO_PKG_VERSION_MAJOR")),
        format!("#define FELICA_VERSION_MINOR {}", env!("CARGO_PKG_VERSION_MINOR")),
    ];
    for start in defined {
        assert!(lines.iter().any(|line| line.starts_with(&start)), "{start}");
    }
}

#[test]
fn a_refusal_says_its_number_its_code_and_its_ground() {
    let said = |frame: &str| parse_frame(&bytes(frame)).unwrap_err().to_string();
    assert_eq!(said("02 04"), "refusal 6 of command 04: IDm missing");
    assert_eq!(said(""), "refusal 1: empty frame");
    assert_eq!(format!("{:12}|", Ground::EmptyFrame), "empty frame |");
}
