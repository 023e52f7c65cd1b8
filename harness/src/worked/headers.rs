//! Headers of the European Data Format (document 02, request 3), each with the
//! frames that the import writes for it, or with "only the line FF and the number".

use super::Worked;
use crate::header::{put, unit_place, Header};

/// "16 BadHeader", "17 UnclearUnit" and "18 FlowCount".
const BAD_HEADER: &[u8] = b"FF10\n";
const UNCLEAR_UNIT: &[u8] = b"FF11\n";
const FLOW_COUNT: &[u8] = b"FF12\n";

/// "For each i the add and the ratio".
const FLOWS: [(&str, &str); 32] = [
    ("0200008081", "0800010001003C"),
    ("0201008283", "0801010001003C"),
    ("0202008485", "0802010001003C"),
    ("0203008687", "0803010001003C"),
    ("0204008889", "0804010001003C"),
    ("0205008A8B", "0805010001003C"),
    ("0206008C8D", "0806010001003C"),
    ("0207008E8F", "0807010001003C"),
    ("0208009091", "0808010001003C"),
    ("0209009293", "0809010001003C"),
    ("020A009495", "080A010001003C"),
    ("020B009697", "080B010001003C"),
    ("020C009899", "080C010001003C"),
    ("020D009A9B", "080D010001003C"),
    ("020E009C9D", "080E010001003C"),
    ("020F009E9F", "080F010001003C"),
    ("021000A0A1", "0810010001003C"),
    ("021100A2A3", "0811010001003C"),
    ("021200A4A5", "0812010001003C"),
    ("021300A6A7", "0813010001003C"),
    ("021400A8A9", "0814010001003C"),
    ("021500AAAB", "0815010001003C"),
    ("021600ACAD", "0816010001003C"),
    ("021700AEAF", "0817010001003C"),
    ("021800B0B1", "0818010001003C"),
    ("021900B2B3", "0819010001003C"),
    ("021A00B4B5", "081A010001003C"),
    ("021B00B6B7", "081B010001003C"),
    ("021C00B8B9", "081C010001003C"),
    ("021D00BABB", "081D010001003C"),
    ("021E00BCBD", "081E010001003C"),
    ("021F00BEBF", "081F010001003C"),
];

/// The units of flows.
pub const FLOW_UNITS: [&[u8]; 2] = [b"L/min", b"L/s"];

/// "One of the two texts but for letter case": all of them.
pub const UNCLEAR_UNITS: [&[u8]; 18] = [
    b"l/min", b"L/Min", b"L/mIn", b"L/miN", b"L/MIn", b"L/MiN", b"L/mIN", b"L/MIN", b"l/Min",
    b"l/mIn", b"l/miN", b"l/MIn", b"l/MiN", b"l/mIN", b"l/MIN", b"l/s", b"L/S", b"l/S",
];

/// Units that are ignored. Only trailing spaces are dropped, and case is that of
/// A to Z: a long s and an i without its dot are other letters.
pub const OTHER_UNITS: [&[u8]; 44] = [
    b"",
    b"uV",
    b"\xB5V",
    b"\xC2\xB5V",
    b"%",
    b"cmH2O",
    b"mL/min",
    b"ml/s",
    b"dL/s",
    b"L",
    b"L/",
    b"L/m",
    b"L/mi",
    b"L/sec",
    b"L/min.",
    b"L/mins",
    b"L/min/s",
    b"L/min/kg",
    b"L/h",
    b"LPM",
    b"Lmin",
    b"L//s",
    b"L\\s",
    b"L\x0Fs",
    b"l\x0Fmin",
    b" L/min",
    b" L/s",
    b"     L/s",
    b"   l/min",
    b"L /s",
    b"L/ min",
    b"L/s L/s",
    b"L/min  x",
    b"L/s    s",
    b"L/min\0",
    b"L/min\0\0\0",
    b"L/s\0",
    b"l/s\0\0\0\0\0",
    b"\0L/s",
    b"L/min\t",
    b"\tL/s",
    b"L/min\xA0",
    b"L/\xC5\xBF",
    b"L/m\xC4\xB1n",
];

/// Counts of one signal that are not "a plain number from 1 to 254"; 257 and 513
/// are 1 in one byte.
const BAD_COUNTS: [&[u8]; 42] = [
    b"", b" 1", b"  1", b"   1", b"+1", b"-1", b"1 1", b"1  1", b"1 x", b"1x", b"x1", b"0x1",
    b"1.", b"1.0", b"1,", b"1e0", b"one", b"1\0", b"1\0\0\0", b"1 \0", b"\x001", b"1\t", b"\t1",
    b"1\n", b"1\r\n", b"1\xA0", b"\xB9", b"/", b":", b"1/", b"1:", b"0", b"00", b"0000", b"-0",
    b"2", b"10", b"255", b"256", b"257", b"0513", b"9999",
];

/// Header lengths of one signal that are not "the plain number 256 × (count + 1)";
/// 66,048 is 512 in two bytes.
const BAD_LENGTHS: [&[u8]; 38] = [
    b"",
    b" 512",
    b"     512",
    b"+512",
    b"-512",
    b"5 12",
    b"51 2",
    b"512 0",
    b"512    0",
    b"512x",
    b"x512",
    b"0x200",
    b"512.",
    b"512.0",
    b"5.12e2",
    b"512,",
    b"512\0",
    b"512\0\0\0\0\0",
    b"512 \0",
    b"\x00512",
    b"512\t",
    b"\t512",
    b"512\n",
    b"512\xA0",
    b"5/2",
    b"5:2",
    b"0",
    b"00000000",
    b"1",
    b"51",
    b"256",
    b"511",
    b"513",
    b"768",
    b"5120",
    b"66048",
    b"65536",
    b"99999999",
];

/// Every header.
pub fn all() -> Vec<Worked> {
    let mut headers = Vec::new();
    headers.extend(flows());
    headers.extend(units());
    headers.extend(counts());
    headers.extend(lengths());
    headers.extend(sizes());
    headers.extend(order());
    headers.extend(places());
    headers
}

/// Files by other tools (`samples/edf/README.md`), each named by its path.
pub fn samples() -> Vec<Worked> {
    let cases: [(&str, &[u8]); 8] = [
        ("airflow.edf", &one_flow()),
        ("edf/per-minute.edf", &one_flow()),
        ("edf/both-among-others.edf", &two_flows()),
        ("edf/32-flows.edf", &frames("0140", 32)),
        ("edf/33-flows.edf", FLOW_COUNT),
        ("edf/lower-case.edf", UNCLEAR_UNIT),
        ("edf/no-flow.edf", FLOW_COUNT),
        ("edf/biosig.edf", FLOW_COUNT),
    ];
    let folder = concat!(env!("CARGO_MANIFEST_DIR"), "/../samples/");
    let sample = |(name, output)| {
        let path = folder.to_string() + name;
        let file = std::fs::read(&path).unwrap_or_else(|error| panic!("{path}: {error}"));
        worked(&path, file, output)
    };
    cases.into_iter().map(sample).collect()
}

/// A file with its output.
fn worked(name: &str, file: Vec<u8>, output: &[u8]) -> Worked {
    Worked {
        name: name.to_string(),
        text: file,
        output: output.to_vec(),
    }
}

/// A name with the text that it is about.
fn about(name: &str, text: &[u8]) -> String {
    format!("{name} '{}'", text.escape_ascii())
}

/// A header with its output.
fn of(name: &str, header: &Header, output: &[u8]) -> Worked {
    worked(name, header.file(), output)
}

/// An opening and the frames of so many flows.
fn frames(opening: &str, flows: usize) -> Vec<u8> {
    let mut output = opening.to_string() + "\n";
    for (add, ratio) in &FLOWS[..flows] {
        output += &format!("{add}\n{ratio}\n");
    }
    output.into_bytes()
}

/// The frames of one flow.
fn one_flow() -> Vec<u8> {
    b"0102\n0200008081\n0800010001003C\n".to_vec()
}

/// The frames of two.
fn two_flows() -> Vec<u8> {
    b"0104\n0200008081\n0800010001003C\n0201008283\n0801010001003C\n".to_vec()
}

/// So many signals of one unit.
fn equal(signals: usize, unit: &[u8]) -> Vec<Vec<u8>> {
    vec![unit.to_vec(); signals]
}

/// Flows alone and between others: "i from 0, counting only these".
fn flows() -> Vec<Worked> {
    let [minute, second] = FLOW_UNITS;
    let between: [&[u8]; 6] = [b"uV", second, b"", b"mL/min", minute, b"%"];
    let of_each = [minute, second, second, minute, second, minute, minute];
    let mut headers = vec![
        of("per minute", &Header::new(&[minute]), &one_flow()),
        of("per second", &Header::new(&[second]), &one_flow()),
        of("both", &Header::new(&[minute, second]), &two_flows()),
        of("between others", &Header::new(&between), &two_flows()),
        of("seven", &Header::new(&of_each), &frames("010E", 7)),
    ];
    let many: [(usize, &[u8]); 6] = [
        (31, &frames("013E", 31)),
        (32, &frames("0140", 32)),
        (33, FLOW_COUNT),
        (64, FLOW_COUNT),
        (128, FLOW_COUNT),
        (254, FLOW_COUNT),
    ];
    for (flows, output) in many {
        for unit in FLOW_UNITS {
            let name = format!("{flows} flows");
            headers.push(of(&name, &Header::new(&equal(flows, unit)), output));
        }
    }
    headers.extend(among_254());
    headers
}

/// 254 signals with flows among them, the first and the last.
fn among_254() -> Vec<Worked> {
    let cases: [(usize, &[u8]); 5] = [
        (0, FLOW_COUNT),
        (1, &one_flow()),
        (2, &two_flows()),
        (32, &frames("0140", 32)),
        (33, FLOW_COUNT),
    ];
    let mut headers = Vec::new();
    for (flows, output) in cases {
        let others = equal(254 - flows, b"uV");
        let flows = equal(flows, b"L/s");
        let first = [flows.clone(), others.clone()].concat();
        let last = [others, flows].concat();
        headers.push(of("254 signals, flows first", &Header::new(&first), output));
        headers.push(of("254 signals, flows last", &Header::new(&last), output));
    }
    headers
}

/// Each unit alone, behind a flow and before one.
fn units() -> Vec<Worked> {
    let mut headers = Vec::new();
    for unit in UNCLEAR_UNITS {
        let name = about("unclear unit", unit);
        for units in [vec![unit], vec![b"L/min", unit], vec![unit, b"L/s"]] {
            headers.push(of(&name, &Header::new(&units), UNCLEAR_UNIT));
        }
    }
    for unit in OTHER_UNITS {
        let name = about("another unit", unit);
        headers.push(of(&name, &Header::new(&[unit]), FLOW_COUNT));
        for units in [[b"L/min", unit], [unit, b"L/s"]] {
            headers.push(of(&name, &Header::new(&units), &one_flow()));
        }
    }
    headers
}

/// "Signal count not a plain number from 1 to 254". Leading zeros are plain.
fn counts() -> Vec<Worked> {
    let one = Header::new(&FLOW_UNITS[..1]);
    let twelve = Header::new(&equal(12, b"L/s"));
    let most = Header::new(&[equal(253, b"uV"), equal(1, b"L/s")].concat());
    let none: [&[u8]; 0] = [];
    let mut headers = vec![
        of("no signals", &Header::new(&none), BAD_HEADER),
        of("255", &Header::new(&equal(255, b"uV")), BAD_HEADER),
        of("255", &Header::new(&equal(255, b"l/s")), BAD_HEADER),
        of("256", &Header::new(&equal(256, b"uV")), BAD_HEADER),
    ];
    let (one_flow, twelve_flows) = (one_flow(), frames("0118", 12));
    for (header, count, output) in [
        (&one, "1", &one_flow),
        (&one, "01", &one_flow),
        (&one, "001", &one_flow),
        (&one, "0001", &one_flow),
        (&twelve, "12", &twelve_flows),
        (&twelve, "012", &twelve_flows),
        (&twelve, "0012", &twelve_flows),
        (&most, "254", &one_flow),
        (&most, "0254", &one_flow),
    ] {
        let count = count.as_bytes();
        let name = about("good count", count);
        headers.push(of(&name, &header.clone().count(count), output));
    }
    for count in BAD_COUNTS {
        let name = about("bad count", count);
        headers.push(of(&name, &one.clone().count(count), BAD_HEADER));
    }
    headers
}

/// "Header length not the plain number 256 × (count + 1)".
fn lengths() -> Vec<Worked> {
    let one = Header::new(&FLOW_UNITS[..1]);
    let two = Header::new(&FLOW_UNITS);
    let mut headers = Vec::new();
    for length in ["512", "0512", "00512", "000512", "0000512", "00000512"] {
        let name = about("good length", length.as_bytes());
        let header = one.clone().length(length.as_bytes());
        headers.push(of(&name, &header, &one_flow()));
    }
    for length in BAD_LENGTHS {
        let name = about("bad length", length);
        headers.push(of(&name, &one.clone().length(length), BAD_HEADER));
    }
    for length in ["256", "512", "1024", "770", "767"] {
        let name = about("bad length of two signals", length.as_bytes());
        let header = two.clone().length(length.as_bytes());
        headers.push(of(&name, &header, BAD_HEADER));
    }
    let fewer = two.clone().count(b"1");
    headers.push(of("count of one, length of two", &fewer, BAD_HEADER));
    // One signal fewer is a good header too, whose units are looked for elsewhere.
    headers.push(of("one of two", &fewer.length(b"512"), FLOW_COUNT));
    headers
}

/// "File shorter than its header". What stands behind it is ignored.
fn sizes() -> Vec<Worked> {
    let one = Header::new(&FLOW_UNITS[..1]).file();
    let most = Header::new(&[equal(253, b"uV"), equal(1, b"L/s")].concat()).file();
    let mut headers = Vec::new();
    for file in [&one, &most] {
        let whole = file.len();
        for length in [0, 1, 184, 252, 255, 256, 257, whole - 256, whole - 1] {
            let name = format!("{whole} bytes cut to {length}");
            headers.push(worked(&name, file[..length].to_vec(), BAD_HEADER));
        }
        let behind: [&[u8]; 5] = [b"\0", b"l/min   ", &[b' '; 256], &[0xFF; 300], &one];
        for behind in behind {
            let file = [file, behind].concat();
            headers.push(worked("bytes behind the header", file, &one_flow()));
        }
    }
    headers
}

/// The answers "in that order".
fn order() -> Vec<Worked> {
    let unclear = Header::new(&[b"l/min"]);
    let too_many = Header::new(&equal(33, b"L/s"));
    let both = Header::new(&[equal(33, b"L/s"), equal(1, b"L/S")].concat());
    let none = Header::new(&[b"uV"]);
    let mut headers = vec![of("17 before 18", &both, UNCLEAR_UNIT)];
    for header in [unclear, too_many, both, none] {
        let bad_count = header.clone().count(b" 1");
        let bad_length = header.clone().length(b"511");
        let mut short = header.file();
        short.pop();
        headers.push(of("16 first, count", &bad_count, BAD_HEADER));
        headers.push(of("16 first, length", &bad_length, BAD_HEADER));
        headers.push(worked("16 first, short", short, BAD_HEADER));
    }
    headers
}

/// The texts in other places of a header of two signals: labels, transducer types,
/// physical minima, prefilterings and the rest.
fn places() -> Vec<Worked> {
    let others = [
        8, 88, 192, 256, 272, 288, 368, 464, 472, 480, 528, 608, 688, 752,
    ];
    let (none, one) = (Header::new(&["uV", "%"]), Header::new(&["%", "L/s"]));
    let mut headers = Vec::new();
    for place in others {
        let (mut no_flow, mut flow) = (none.file(), one.file());
        put(&mut no_flow, place, b"L/min   ");
        put(&mut flow, place, b"l/min   ");
        let name = format!("unit at {place}");
        headers.push(worked(&name, no_flow, FLOW_COUNT));
        headers.push(worked(&name, flow, &one_flow()));
    }
    // Nothing of the other fields is checked, not even the version.
    for place in [0, 88, 168, 192, 236, 244] {
        let mut file = one.file();
        put(&mut file, place, b"\xFFBIOSEMI");
        headers.push(worked(&format!("text at {place}"), file, &one_flow()));
    }
    let mut first = none.file();
    put(&mut first, unit_place(2, 0), b"L/min   ");
    headers.push(worked("unit in its place", first, &one_flow()));
    headers
}
