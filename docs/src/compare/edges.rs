//! Inputs at the edge of document 01's wording, each with the printout worked
//! out by hand, so that a slip made in both programs still shows. Where document
//! 01 is open they follow docs/DECISIONS.md, as both programs do.

pub struct Edge {
    pub name: &'static str,
    pub schedule: Vec<u8>,
    pub printout: Vec<u8>,
}

const HEADING: &str = "no,process,act,answer,open,v0,v1,v2,v3\r\n";
/// Accepted, and prints no row.
const SETUP: &[u8] = b"1,one,1,4,1,,\r\n";
const STEP: &[u8] = b"0,step,,,,,\r\n";
const STEP_ROW: &str = "0,step,refused,0,9,,,";
const TEN: &str = ",,refused,,10,,,";
const ELEVEN: &str = ",,refused,,11,,,";

fn edge(name: &'static str, schedule: &[u8], lines: &[String]) -> Edge {
    let mut printout = HEADING.to_string();
    for line in lines {
        printout += line;
        printout += "\r\n";
    }
    Edge { name, schedule: schedule.to_vec(), printout: printout.into_bytes() }
}

/// A whole input whose set-up is refused.
fn refused(name: &'static str, schedule: &[u8], number: u64) -> Edge {
    edge(name, schedule, &[format!("0,,setup,refused,,{number},,,")])
}

/// Records behind an accepted set-up, with their rows less the record number.
fn after(setup: &[u8], name: &'static str, records: &[u8], rows: &[&str]) -> Edge {
    let numbered = rows.iter().zip(1..).map(|(row, number)| format!("{number},{row}"));
    edge(name, &[setup, records].concat(), &numbered.collect::<Vec<_>>())
}

fn records(name: &'static str, records: &[u8], rows: &[&str]) -> Edge {
    after(SETUP, name, records, rows)
}

pub fn edges() -> Vec<Edge> {
    [line_ends(), lengths(), bytes(), set_ups(), fields(), orders()].into_iter().flatten().collect()
}

fn line_ends() -> Vec<Edge> {
    vec![
        edge("no input", b"", &[]),
        refused("a pair alone", b"\r\n", 10),
        refused("two pairs", b"\r\n\r\n", 10),
        refused("a CR alone", b"\r", 10),
        refused("an LF alone", b"\n", 10),
        records("a set-up alone", b"", &[]),
        edge("a set-up without its pair", b"1,one,1,4,1,,", &[]),
        refused("a set-up with half its pair", b"1,one,1,4,1,,\r", 10),
        records("a last record without its pair", b"0,step,,,,,", &[STEP_ROW]),
        records("an empty record", &[b"\r\n", STEP].concat(), &[TEN, STEP_ROW]),
        records("an empty record last", &[STEP, b"\r\n"].concat(), &[STEP_ROW, TEN]),
        records("half a pair at the end", b"0,step,,,,,\r", &[TEN]),
        records("a CR behind the last pair", &[STEP, b"\r"].concat(), &[STEP_ROW, TEN]),
        records("an LF at the end", b"0,step,,,,,\n", &[TEN]),
        refused("LF for line ends", b"1,one,1,4,1,,\n0,step,,,,,\n", 10),
        refused("CR for line ends", b"1,one,1,4,1,,\r0,step,,,,,\r", 10),
        records("an LF between", &[b"0,step,,,,,\n", STEP, STEP].concat(), &[TEN, STEP_ROW]),
        records("CR CR LF", &[b"0,step,,,,,\r\r\n", STEP].concat(), &[TEN, STEP_ROW]),
        records("CR LF LF", &[STEP, b"\n", STEP].concat(), &[STEP_ROW, TEN]),
        records("LF CR LF", &[b"0,step,,,,,\n\r\n", STEP].concat(), &[TEN, STEP_ROW]),
        records("a pair between marks", b"\"0\r\n0\",step,,,,,\r\n", &[TEN, TEN]),
    ]
}

/// A step of seven fields, its process as many digits as make up the length.
fn long(length: usize, line_end: &[u8]) -> Vec<u8> {
    let digits = vec![b'1'; length - b",step,,,,,".len()];
    [&digits, &b",step,,,,,"[..], line_end].concat()
}

fn lengths() -> Vec<Edge> {
    let far = [long(300_000, b"\r\n"), STEP.to_vec()].concat();
    let empty_fields = [&[b','; 6][..], &[b'x'; 504], b"\r\n"].concat();
    vec![
        records("510 bytes and the pair", &long(510, b"\r\n"), &[ELEVEN]),
        records("510 bytes, filled behind", &empty_fields, &[ELEVEN]),
        records("511 bytes and the pair", &long(511, b"\r\n"), &[TEN]),
        records("512 bytes and the pair", &long(512, b"\r\n"), &[TEN]),
        records("511 bytes without the pair", &long(511, b""), &[ELEVEN]),
        records("512 bytes without the pair", &long(512, b""), &[ELEVEN]),
        records("513 bytes without the pair", &long(513, b""), &[TEN]),
        records("300,000 bytes are one record", &far, &[TEN, STEP_ROW]),
        refused("a set-up of 300,000 bytes", &long(300_000, b"\r\n"), 10),
    ]
}

fn bytes() -> Vec<Edge> {
    vec![
        records("NUL", b"\0,step,,,,,\r\n", &[ELEVEN]),
        records("a byte over 127", b"0,step\xff,,,,,\r\n", &[ELEVEN]),
        records("digits of another script", b"\xd9\xa0,step,,,,,\r\n", &[ELEVEN]),
        refused("a byte-order mark", b"\xef\xbb\xbf1,one,1,4,1,,\r\n", 11),
        records("a blank before", b" 0,step,,,,,\r\n", &[ELEVEN]),
        records("a blank behind", b"0,step ,,,,,\r\n", &[ELEVEN]),
        records("a tab", b"0,step,\t,,,,\r\n", &[ELEVEN]),
        records("marks round a field", b"\"0\",step,,,,,\r\n", &[TEN]),
        records("a mark and a wrong field", b"x,step,\",,,,\r\n", &[TEN]),
        records("six fields, one wrong", b"x,step,,,,\r\n", &[TEN]),
        records("eight fields", b"0,step,,,,,,\r\n", &[TEN]),
    ]
}

fn set_ups() -> Vec<Edge> {
    vec![
        refused("N 0", b"0,one,1,4,1,,\r\n", 1),
        refused("N 17", b"17,one,1,4,1,,\r\n", 1),
        refused("N 258, 2 in eight bits", b"258,one,1,4,1,,\r\n", 1),
        refused("N 2^32 + 2", b"4294967298,one,1,4,1,,\r\n", 1),
        refused("N 2^64 - 1", b"18446744073709551615,one,1,4,1,,\r\n", 1),
        refused("N 2^64", b"18446744073709551616,one,1,4,1,,\r\n", 11),
        refused("T 0", b"1,one,0,4,1,,\r\n", 1),
        refused("T 17", b"1,many,17,4,1,,\r\n", 1),
        refused("b 3", b"1,one,1,3,1,,\r\n", 1),
        refused("b 49", b"1,one,1,49,1,,\r\n", 1),
        refused("W 0", b"1,many,1,4,0,,\r\n", 1),
        refused("W 5", b"1,many,1,4,5,,\r\n", 1),
        refused("W 2 of one", b"1,one,1,4,2,,\r\n", 1),
        refused("W blank of one", b"1,one,1,4,,,\r\n", 11),
        refused("11 before 1", b"0,one,x,4,1,,\r\n", 11),
        refused("One", b"1,One,1,4,1,,\r\n", 11),
        refused("no kind", b"1,,1,4,1,,\r\n", 11),
        refused("sixth field filled", b"1,one,1,4,1,0,\r\n", 11),
        refused("seventh field filled", b"1,one,1,4,1,,0\r\n", 11),
        refused("no set-up", b"0,LL,0,,,,\r\n0,step,,,,,\r\n", 11),
        refused("nothing after a refused set-up", &[b"1,one,1,3,1,,\r\n", SETUP, STEP].concat(), 1),
        after(b"16,many,16,48,4,,\r\n", "the greatest sizes", STEP, &[STEP_ROW]),
        records("a second set-up", SETUP, &[ELEVEN]),
    ]
}

fn fields() -> Vec<Edge> {
    let max = "18446744073709551615,step,refused,,4,,,";
    vec![
        records("ll", b"0,ll,0,,,,\r\n", &[ELEVEN]),
        records("Step", b"0,Step,,,,,\r\n", &[ELEVEN]),
        records("no act", b"0,,0,,,,\r\n", &[ELEVEN]),
        records("00", b"0,LL,00,,,,\r\n", &[ELEVEN]),
        records("+0", b"0,LL,+0,,,,\r\n", &[ELEVEN]),
        records("-0", b"0,LL,-0,,,,\r\n", &[ELEVEN]),
        records("process blank", b",step,,,,,\r\n", &[ELEVEN]),
        records("step with a variable", b"0,step,0,,,,\r\n", &[ELEVEN]),
        records("load without a variable", b"0,LL,,,,,\r\n", &[ELEVEN]),
        records("load with a value of 0", b"0,LL,0,0,,,\r\n", &[ELEVEN]),
        records("validate with a value", b"0,VL,0,,,,1\r\n", &[ELEVEN]),
        records("store without a value", b"0,SC,0,,,,\r\n", &[ELEVEN]),
        records("store with a value past W", b"0,SC,0,1,0,,\r\n", &[ELEVEN]),
        records("process 2^64 - 1", b"18446744073709551615,step,,,,,\r\n", &[max]),
        records("process 2^64", b"18446744073709551616,step,,,,,\r\n", &[ELEVEN]),
        records("process 256", b"256,LL,0,,,,\r\n", &["256,LL,refused,,4,,,"]),
        records("variable 2^32", b"0,LL,4294967296,,,,\r\n", &["0,LL,refused,0,5,,,"]),
    ]
}

/// Which refusal comes first.
fn orders() -> Vec<Edge> {
    let begun = "0,LL,begun,0,,,,";
    let loaded = "0,step,value,1,0,,,";
    let load: &[u8] = b"0,LL,0,,,,\r\n0,step,,,,,\r\n";
    // b = 4: values are below 2^60.
    let wide: &[u8] = b"0,SC,0,1152921504606846976,,,\r\n";
    let widest: &[u8] = b"0,SC,0,1152921504606846975,,,\r\n";
    vec![
        records("11 before 4", b"99,LL,,,,,\r\n", &[ELEVEN]),
        records("4 before 5", b"1,LL,1,,,,\r\n", &["1,LL,refused,,4,,,"]),
        records("5 before 6", b"0,LL,0,,,,\r\n0,LL,1,,,,\r\n", &[begun, "0,LL,refused,0,5,,,"]),
        records("5 before 7", b"0,VL,1,,,,\r\n", &["0,VL,refused,0,5,,,"]),
        records("6 before 7", b"0,LL,0,,,,\r\n0,VL,0,,,,\r\n", &[begun, "0,VL,refused,0,6,,,"]),
        records("7 before 8", wide, &["0,SC,refused,0,7,,,"]),
        records("8", &[load, wide].concat(), &[begun, loaded, "0,SC,refused,1,8,,,"]),
        records("no 8", &[load, widest].concat(), &[begun, loaded, "0,SC,begun,1,,,,"]),
    ]
}
