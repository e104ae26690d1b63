//! The library as its users have it: the header, the declarations for Rust, the examples and README's commands.
//!
//! The examples are built as C99, C++11 and Rust under the strictest warnings, run, and held to what they have to
//! print; README's commands are run as printed. The names of the header are held to the second program, and those for
//! Rust to the header's.

#[path = "../../../include/castanetash.rs"]
mod castanetash;

use std::collections::{BTreeMap, BTreeSet};
use std::env;
use std::fs;
use std::path::{Path, PathBuf};
use std::process::{Command, Output};

use castanetash::Refused;
use differential::{printed, root, wanted};
use yardstick::{
    decode, log_record, write_row, Answered, Asked, Form, List, Port, Refusal, Setup, State, Table, Way, Wiring,
};
use yardstick::{LOG_RECORD, PLACES, TABLE_CELLS};

/// The folder of the product's library.
const LIBRARY: &str = env!("CASTANETASH_LIB_FOLDER");

/// All that a compiler has to say about C is an error.
const STRICT: [&str; 5] = ["-Wall", "-Wextra", "-Wpedantic", "-Wconversion", "-Werror"];

/// What an example has to print.
const WRITE_AND_READ: &str = "\
written: 0A 00 41 00 02 01 00 00 00 01
read: port 0, mode 2
written: 0C 00 01 01 01 42 65 6E 63 68 20 37
read: name Bench 7
refusal 7, place 4
refusal 6, place 6
refusal 23, place 0
";
const PORT_TABLE: &str = "\
refusal 14, place 0
port 0, mode 1, state 2, experiment 301: 602
port 0, mode 1, state 1, experiment 0: 598
port 0, mode 2, state 2, experiment 302: -3
port 3, mode 0, state 0, experiment 0: 5.5 -0.25
port 0: device 38, mode 2, datasets 1, kind 2
port 3: device 21, mode 0, datasets 2, kind 3
refused: 1
";
const DRIVE_VIRTUAL: &str = "\
written: 12 00 81 10 11 0E 5A 00 00 00 A6 FF FF FF 32 64 7E 03
port 16: feedback 1
port 16: feedback 10
port 0: feedback 8
port 1: feedback 8
written: 12 00 81 00 11 0E 5A 00 00 00 A6 FF FF FF 32 64 7E 03
refusal 22, place 0
";
const COMBINED_VALUES: &str = "\
written: 09 00 42 02 01 00 00 60 62
port 2, mode 0, state 2, experiment 301: 3
port 2, mode 6, state 2, experiment 301: 50
port 2, mode 6, state 2, experiment 301: 205
port 2, mode 6, state 2, experiment 301: 210
refusal 21, place 0
";

#[derive(Clone, Copy, Debug)]
enum Language {
    C,
    Cpp,
    Rust,
}

const LANGUAGES: [Language; 3] = [Language::C, Language::Cpp, Language::Rust];

/// Builds an example. `purpose` keeps the programs of different tests apart.
fn build(name: &str, language: Language, purpose: &str) -> PathBuf {
    let ending = match language {
        Language::C | Language::Cpp => "c",
        Language::Rust => "rs",
    };
    let source = root().join("examples").join(format!("{name}.{ending}"));
    build_source(&source, language, &format!("{name}_{purpose}"))
}

/// Builds a program of one source, with the library.
fn build_source(source: &Path, language: Language, name: &str) -> PathBuf {
    let program = temporary(&format!("{name}_{language:?}"));
    let archive = Path::new(LIBRARY).join("libcastanetash.a");
    let mut command = match language {
        Language::C => cc("cc", &["-std=c99"]),
        Language::Cpp => cc("c++", &["-std=c++11", "-x", "c++"]),
        Language::Rust => rustc(),
    };
    match language {
        Language::C => command.arg(source).arg(archive),
        Language::Cpp => command.arg(source).args(["-x", "none"]).arg(archive),
        Language::Rust => command.arg("-L").arg(format!("native={LIBRARY}")).arg(source),
    };
    accepted(command.arg("-o").arg(&program));
    program
}

/// A compiler of C or C++ that looks for headers where the product's is.
fn cc(compiler: &str, options: &[&str]) -> Command {
    let mut command = Command::new(compiler);
    command.args(STRICT).arg("-I").arg(root().join("include")).args(options);
    command
}

fn rustc() -> Command {
    let mut command = Command::new(env::var("RUSTC").unwrap_or_else(|_| "rustc".to_owned()));
    command.args(["--edition", "2021", "-D", "warnings"]);
    command
}

/// A file that a test makes.
fn temporary(name: &str) -> PathBuf {
    Path::new(env!("CARGO_TARGET_TMPDIR")).join(format!("callers_{name}"))
}

/// Runs a command, which has to succeed and to tell nothing, and gives what it prints.
fn accepted(command: &mut Command) -> String {
    let output = run(command);
    let told = String::from_utf8_lossy(&output.stderr);
    assert!(output.status.success() && told.is_empty(), "{command:?}\n{told}");
    String::from_utf8(output.stdout).expect("text")
}

fn run(command: &mut Command) -> Output {
    command.output().unwrap_or_else(|error| panic!("{command:?}: {error}"))
}

fn text_of(path: &str) -> String {
    fs::read_to_string(root().join(path)).unwrap_or_else(|error| panic!("{path}: {error}"))
}

#[test]
fn examples_print_what_they_should() {
    for language in LANGUAGES {
        for (name, wanted) in [
            ("write_and_read", WRITE_AND_READ),
            ("port_table", PORT_TABLE),
            ("drive_virtual", DRIVE_VIRTUAL),
            ("combined_values", COMBINED_VALUES),
        ] {
            let program = build(name, language, "printed");
            assert_eq!(accepted(&mut Command::new(program)), wanted, "{name} in {language:?}");
        }
    }
}

/// The example that reads logs prints what the log reader and the second program print: of the bench's log, of one
/// without records, of one cut in its last record, of one that is no record, of one of many blocks, and of one whose
/// block has more text than there is room for.
#[test]
fn read_log_prints_what_the_log_reader_prints() {
    let bench = fs::read(root().join("examples/bench.log")).expect("the bench's log");
    let cut = &bench[..bench.len() - 1];
    let long = [bench.repeat(40), vec![0]].concat();
    let wide = wide_log();
    let logs: [&[u8]; 6] = [&bench, &[], cut, &bench[..LOG_RECORD - 1], &long, &wide];
    for language in LANGUAGES {
        let program = build("read_log", language, "logs");
        for (number, log) in logs.into_iter().enumerate() {
            let path = temporary(&format!("{language:?}_{number}.log"));
            fs::write(&path, log).expect("a log is written");
            let lines = accepted(Command::new(&program).arg(&path));
            assert!(lines.as_bytes() == wanted(log), "log {number} in {language:?}");
            assert!(lines.as_bytes() == printed(log).stdout, "log {number} in {language:?}");
        }
    }
}

/// A log of long lines: 400 values of sixteen datasets each.
fn wide_log() -> Vec<u8> {
    let attached = b"\x0F\x00\x04\x09\x01\x26\x00\x00\x00\x00\x10\x00\x00\x00\x10";
    let format = b"\x0A\x00\x44\x09\x03\x80\x10\x02\x05\x04";
    let answered = b"\x0A\x00\x47\x09\x03\x05\x00\x00\x00\x01";
    let value = [&[68, 0, 0x45, 9][..], &[0x80; 64]].concat();
    let messages = [&attached[..], format, answered].into_iter().chain([&value[..]; 400]);
    messages
        .flat_map(|message| log_record(0, Way::Up, message, 0))
        .collect()
}

/// What can't be read is told, and the status says so. There are no totals.
#[test]
fn read_log_tells_what_fails() {
    for language in LANGUAGES {
        let program = build("read_log", language, "failures");
        let folder = root().join("examples");
        for path in [folder.join("no such file"), folder] {
            let output = run(Command::new(&program).arg(&path));
            let told = String::from_utf8_lossy(&output.stderr);
            assert!(!output.status.success(), "{language:?} {path:?}");
            assert!(output.stdout.is_empty(), "{language:?} {path:?}");
            assert!(told.contains(&*path.to_string_lossy()), "{language:?} {told}");
        }
        let output = run(&mut Command::new(&program));
        assert!(!output.status.success() && output.stdout.is_empty(), "{language:?}");
        assert_eq!(String::from_utf8_lossy(&output.stderr), "usage: read_log FILE\n");
    }
}

/// A program in C that shows the answers of all calls that judge a size, by the macros of the header.
const WRONG_SIZES: &str = r#"
#include "castanetash.h"
#include <stdio.h>

static void show(uint64_t answer) {
    printf("refusal %u, place %u\n", (unsigned)CASTANETASH_REFUSAL(answer), (unsigned)CASTANETASH_PLACE(answer));
}

int main(void) {
    const uint8_t action[] = {3, 0, 0x02};
    const uint8_t list[] = {6, 0, 0x43, 0, 2, 0x16};
    const uint8_t value[] = {4, 0, 0x45, 0};
    const uint8_t information[] = {5, 0, 0x44, 0, 2};
    const uint8_t surplus[] = {0};
    uint8_t out[CASTANETASH_LONGEST];
    uint32_t table[CASTANETASH_TABLE_CELLS];
    uint64_t cells[CASTANETASH_DATASET_CELLS];
    uint64_t row[CASTANETASH_ROW_CELLS] = {0};
    row[CASTANETASH_ROW_FORM] = CASTANETASH_FORM_INPUT_FORMAT_SETUP;
    show(castanetash_write(row, CASTANETASH_ROW_CELLS, CASTANETASH_DOWN, surplus, 1, out, sizeof out));
    show(castanetash_read(action, sizeof action, CASTANETASH_DOWN, row, CASTANETASH_ROW_CELLS));
    show(castanetash_empty(table, CASTANETASH_TABLE_CELLS));
    show(castanetash_offer(table, CASTANETASH_TABLE_CELLS, list, sizeof list, CASTANETASH_UP, 0));
    show(castanetash_dataset(table, CASTANETASH_TABLE_CELLS, value, sizeof value, CASTANETASH_UP, 0, cells,
                             CASTANETASH_DATASET_CELLS));
    show(castanetash_values(table, CASTANETASH_TABLE_CELLS, information, sizeof information, CASTANETASH_UP, cells,
                            CASTANETASH_DATASET_CELLS));
    return 0;
}
"#;

/// What it has to print: a 41 has ten bytes, a 02 four, a list of a 43 at least seven and a 45 at least five; a 44's
/// type is its sixth byte. Making a table empty is accepted.
const SIZES_WANTED: &str = "\
refusal 6, place 10
refusal 6, place 4
refusal 0, place 0
refusal 6, place 7
refusal 6, place 5
refusal 6, place 6
";

#[test]
fn callers_in_c_see_the_size_that_was_wanted() {
    let source = temporary("wrong_sizes.c");
    fs::write(&source, WRONG_SIZES).expect("a source is written");
    for language in [Language::C, Language::Cpp] {
        let program = build_source(&source, language, "wrong_sizes");
        assert_eq!(accepted(&mut Command::new(program)), SIZES_WANTED, "{language:?}");
    }
}

/// A program in C that reads a 12 and a 13 and writes what it read, by the names of the header.
const MEMORY_LOCK: &str = r#"
#include "castanetash.h"
#include <stdio.h>

static void pass_on(const uint8_t *message, size_t length, uint8_t way) {
    uint8_t out[CASTANETASH_LONGEST];
    uint64_t row[CASTANETASH_ROW_CELLS];
    uint64_t answer = castanetash_read(message, length, way, row, CASTANETASH_ROW_CELLS);
    printf("read: refusal %u, form %u\n", (unsigned)CASTANETASH_REFUSAL(answer), (unsigned)row[CASTANETASH_ROW_FORM]);
    answer = castanetash_write(row, CASTANETASH_ROW_CELLS, way, NULL, 0, out, sizeof out);
    printf("written: refusal %u, place %u, %s\n", (unsigned)CASTANETASH_REFUSAL(answer),
           (unsigned)CASTANETASH_PLACE(answer),
           CASTANETASH_REFUSAL(answer) == CASTANETASH_REFUSED_READ_ONLY ? "only read" : "another refusal");
}

int main(void) {
    const uint8_t request[] = {3, 0, 0x12};
    const uint8_t status[] = {4, 0, 0x13, 0xFF};
    pass_on(request, sizeof request, CASTANETASH_DOWN);
    pass_on(status, sizeof status, CASTANETASH_UP);
    return 0;
}
"#;

#[test]
fn callers_in_c_see_that_a_type_is_only_read() {
    let source = temporary("memory_lock.c");
    fs::write(&source, MEMORY_LOCK).expect("a source is written");
    let wanted = "\
read: refusal 0, form 17
written: refusal 23, place 0, only read
read: refusal 0, form 18
written: refusal 23, place 0, only read
";
    for language in [Language::C, Language::Cpp] {
        let program = build_source(&source, language, "memory_lock");
        assert_eq!(accepted(&mut Command::new(program)), wanted, "{language:?}");
    }
}

/// README's blocks of the section on use: each block of commands is followed by what every one of them prints.
#[test]
fn readme_commands_print_what_readme_says() {
    let archive = root().join("target/staticlib/libcastanetash.a");
    assert!(
        archive.exists(),
        "{} doesn't exist: `tools/staticlib` writes it",
        archive.display()
    );
    let mut compilers = BTreeSet::new();
    for pair in readme_blocks("## Use it").chunks(2) {
        let [commands, printed] = pair else {
            panic!("nothing is said to be printed by {pair:?}");
        };
        for command in commands {
            let compiler = command.split(' ').next().expect("a word");
            // The library is there already.
            if compiler == "tools/staticlib" {
                continue;
            }
            compilers.insert(compiler);
            let lines = accepted(Command::new("sh").arg("-c").arg(command).current_dir(root()));
            assert_eq!(lines, printed.join("\n") + "\n", "{command}");
        }
    }
    assert_eq!(compilers, BTreeSet::from(["c++", "cc", "rustc"]));
}

/// The blocks of a section of README, each of them its lines.
fn readme_blocks(heading: &str) -> Vec<Vec<&'static str>> {
    let readme: &str = text_of("README.md").leak();
    let (_, section) = readme.split_once(&format!("{heading}\n")).expect("the section");
    let section = section.split("\n## ").next().expect("the section's text");
    let mut blocks = vec![vec![]];
    for line in section.lines() {
        match line.strip_prefix("    ") {
            Some(line) => blocks.last_mut().expect("a block").push(line),
            None => blocks.push(vec![]),
        }
    }
    blocks.retain(|block| !block.is_empty());
    blocks
}

/// The numbers of the header by their names, without `CASTANETASH_`.
fn header_numbers() -> BTreeMap<String, u64> {
    let header = text_of("include/castanetash.h");
    let mut numbers = BTreeMap::new();
    for line in header.lines() {
        let line = line.trim_start();
        let line = line.strip_prefix("#define ").unwrap_or(line);
        let Some(line) = line.strip_prefix("CASTANETASH_") else {
            continue;
        };
        let mut words = line.split([' ', ',']).filter(|word| !word.is_empty() && *word != "=");
        let (Some(name), Some(Ok(number))) = (words.next(), words.next().map(str::parse)) else {
            continue;
        };
        assert_eq!(numbers.insert(name.to_owned(), number), None, "{name} is there twice");
    }
    numbers
}

/// The constants of the declarations for Rust: their paths, and their numbers.
fn rust_numbers() -> Vec<(String, u64)> {
    let source = text_of("include/castanetash.rs");
    let mut module = String::new();
    let mut numbers = Vec::new();
    for line in source.lines() {
        if let Some(name) = line.strip_prefix("pub mod ") {
            module = format!("{}::", name.trim_end_matches(" {"));
        } else if line == "}" {
            module.clear();
        } else if let Some(constant) = line.trim_start().strip_prefix("pub const ") {
            let (name, rest) = constant.split_once(": ").expect("a type");
            let (_, number) = rest.trim_end_matches(';').split_once(" = ").expect("a number");
            numbers.push((format!("{module}{name}"), number.parse().expect("a number")));
        }
    }
    numbers
}

/// `CASTANETASH_ATTACHED_PORT` of the header is `attached::PORT` for Rust.
#[test]
fn header_and_rust_have_the_same_numbers() {
    let mut rust = BTreeMap::new();
    for (path, number) in rust_numbers() {
        let name = path.replace("::", "_").to_uppercase();
        assert_eq!(rust.insert(name, number), None, "{path} is there twice");
    }
    assert_eq!(header_numbers(), rust);
}

/// The compilers see the numbers that the tests here see.
#[test]
fn compilers_agree_with_the_numbers() {
    let mut c = "#include \"castanetash.h\"\n".to_owned();
    for (name, number) in header_numbers() {
        c += &format!("typedef char is_{name}[CASTANETASH_{name} == {number} ? 1 : -1];\n");
    }
    let path = temporary("numbers.c");
    fs::write(&path, c).expect("a source is written");
    accepted(cc("cc", &["-std=c99", "-fsyntax-only"]).arg(&path));
    accepted(cc("c++", &["-std=c++11", "-fsyntax-only", "-x", "c++"]).arg(&path));

    let declarations = root().join("include/castanetash.rs");
    let mut rust = format!("#[path = {declarations:?}]\nmod castanetash;\nfn main() {{}}\n");
    for (path, number) in rust_numbers() {
        rust += &format!("const _: () = assert!(castanetash::{path} as u64 == {number});\n");
    }
    let path = temporary("numbers.rs");
    fs::write(&path, rust).expect("a source is written");
    accepted(
        rustc()
            .arg("--emit=metadata")
            .arg(&path)
            .arg("-o")
            .arg(path.with_extension("rmeta")),
    );
}

/// The header's functions and those of `raw`, as Rust declares them.
#[test]
fn header_and_rust_have_the_same_functions() {
    let header = text_of("include/castanetash.h");
    let header: Vec<String> = header.split("\nuint64_t ").skip(1).map(rust_declaration).collect();
    let source = text_of("include/castanetash.rs");
    let rust: Vec<String> = source.split("pub fn castanetash_").skip(1).map(one_line).collect();
    assert_eq!(header.len(), 10);
    let [header, rust] = [header, rust].map(|list| list.into_iter().collect::<BTreeSet<_>>());
    assert_eq!(header, rust);
}

/// A function of `raw` from its name on, on one line.
fn one_line(declaration: &str) -> String {
    let declaration = declaration.split(';').next().expect("a declaration");
    let words: Vec<&str> = declaration.split_whitespace().collect();
    let line = format!("castanetash_{}", words.join(" "));
    line.replace("( ", "(").replace(", )", ")")
}

/// A function of the header, which returns a u64, as Rust declares it.
fn rust_declaration(declaration: &str) -> String {
    let (name, rest) = declaration.split_once('(').expect("a function");
    let (parameters, _) = rest.split_once(");").expect("the end of a function");
    let parameters: Vec<String> = parameters.split(',').map(rust_parameter).collect();
    format!("{name}({}) -> u64", parameters.join(", "))
}

fn rust_parameter(parameter: &str) -> String {
    let number = |name| match name {
        "uint8_t" => "u8",
        "uint16_t" => "u16",
        "uint32_t" => "u32",
        "uint64_t" => "u64",
        "size_t" => "usize",
        _ => panic!("{name} isn't a type of the interface"),
    };
    let words: Vec<&str> = parameter.split_whitespace().collect();
    match words[..] {
        ["const", of, name] => match name.strip_prefix('*') {
            Some(name) => format!("{name}: *const {}", number(of)),
            None => panic!("{parameter} isn't a pointer"),
        },
        [of, name] => match name.strip_prefix('*') {
            Some(name) => format!("{name}: *mut {}", number(of)),
            None => format!("{name}: {}", number(of)),
        },
        _ => panic!("{parameter} isn't a parameter"),
    }
}

/// A message of each form, and its values by their names. No two values of a message are equal, so that no two names
/// can stand for each other.
type Sample = (Form, Way, &'static [u8], &'static [(&'static str, i64)]);

const SAMPLES: [Sample; Form::COUNT] = [
    (
        Form::PropertyCommand,
        Way::Down,
        b"\x05\x00\x01\x02\x05",
        &[("PROPERTY", 2), ("OPERATION", 5)],
    ),
    (
        Form::PropertyText,
        Way::Up,
        b"\x08\x00\x01\x08\x06ABC",
        &[("PROPERTY", 8), ("OPERATION", 6)],
    ),
    (
        Form::PropertyByte,
        Way::Down,
        b"\x06\x00\x01\x0C\x01\x07",
        &[("PROPERTY", 12), ("OPERATION", 1), ("VALUE", 7)],
    ),
    (
        Form::PropertyRssi,
        Way::Up,
        b"\x06\x00\x01\x05\x06\xC4",
        &[("PROPERTY", 5), ("OPERATION", 6), ("RSSI", -60)],
    ),
    (
        Form::PropertyVersion,
        Way::Up,
        b"\x09\x00\x01\x03\x06\x10\x15\x37\x17",
        &[("PROPERTY", 3), ("OPERATION", 6), ("VERSION", 0x1737_1510)],
    ),
    (
        Form::PropertyProtocol,
        Way::Up,
        b"\x07\x00\x01\x0A\x06\x00\x03",
        &[("PROPERTY", 10), ("OPERATION", 6), ("VERSION", 0x0300)],
    ),
    (
        Form::PropertyAddress,
        Way::Up,
        b"\x0B\x00\x01\x0D\x06\x00\x16\x53\x01\x02\x03",
        &[("PROPERTY", 13), ("OPERATION", 6), ("ADDRESS", 0x0016_5301_0203)],
    ),
    (Form::HubAction, Way::Down, b"\x04\x00\x02\x2F", &[("ACTION", 47)]),
    (
        Form::AlertCommand,
        Way::Down,
        b"\x05\x00\x03\x04\x03",
        &[("ALERT", 4), ("OPERATION", 3)],
    ),
    (
        Form::AlertUpdate,
        Way::Up,
        b"\x06\x00\x03\x01\x04\xFF",
        &[("ALERT", 1), ("OPERATION", 4), ("STATUS", 255)],
    ),
    (
        Form::Detached,
        Way::Up,
        b"\x05\x00\x04\x09\x00",
        &[("PORT", 9), ("EVENT", 0)],
    ),
    (
        Form::Attached,
        Way::Up,
        b"\x0F\x00\x04\x09\x01\x26\x00\x02\x00\x00\x10\x03\x00\x00\xF0",
        &[
            ("PORT", 9),
            ("EVENT", 1),
            ("DEVICE", 38),
            ("HARDWARE", 0x1000_0002),
            ("SOFTWARE", 3 - 0x1000_0000),
        ],
    ),
    (
        Form::AttachedVirtual,
        Way::Up,
        b"\x09\x00\x04\x09\x02\x26\x00\x05\x06",
        &[("PORT", 9), ("EVENT", 2), ("DEVICE", 38), ("PORT_A", 5), ("PORT_B", 6)],
    ),
    (
        Form::GenericError,
        Way::Up,
        b"\x05\x00\x05\x41\x06",
        &[("COMMAND", 0x41), ("ERROR", 6)],
    ),
    (Form::GoIntoBootMode, Way::Down, b"\x0C\x00\x10LPF2-Boot", &[]),
    (Form::LockMemory, Way::Down, b"\x0B\x00\x11Lock Mem", &[]),
    (Form::LockStatusRequest, Way::Down, b"\x03\x00\x12", &[]),
    (Form::LockStatus, Way::Up, b"\x04\x00\x13\xFF", &[("STATUS", 255)]),
    (
        Form::PortInformationRequest,
        Way::Down,
        b"\x05\x00\x21\x09\x02",
        &[("PORT", 9), ("INFORMATION", 2)],
    ),
    (
        Form::ModeInformationRequest,
        Way::Down,
        b"\x06\x00\x22\x09\x03\x80",
        &[("PORT", 9), ("MODE", 3), ("INFORMATION", 0x80)],
    ),
    (
        Form::InputFormatSetup,
        Way::Down,
        b"\x0A\x00\x41\x09\x03\x05\x00\x00\x00\x01",
        &[("PORT", 9), ("MODE", 3), ("DELTA", 5), ("NOTIFY", 1)],
    ),
    (
        Form::PortModes,
        Way::Up,
        b"\x0B\x00\x43\x09\x01\x0F\x06\x1E\x00\x1F\x00",
        &[
            ("PORT", 9),
            ("INFORMATION", 1),
            ("CAPABILITIES", 15),
            ("MODE_COUNT", 6),
            ("INPUT_MODES", 30),
            ("OUTPUT_MODES", 31),
        ],
    ),
    (
        Form::PortCombinations,
        Way::Up,
        b"\x0B\x00\x43\x09\x02\x0E\x00\x0F\x00\x10\x00",
        &[("PORT", 9), ("INFORMATION", 2), ("COUNT", 3), ("ENTRIES", 14)],
    ),
    (
        Form::ModeText,
        Way::Up,
        b"\x09\x00\x44\x09\x03\x00ABC",
        &[("PORT", 9), ("MODE", 3), ("INFORMATION", 0)],
    ),
    (
        Form::ModeRange,
        Way::Up,
        b"\x0E\x00\x44\x09\x03\x01\x00\x00\x80\x3F\x00\x00\x48\x43",
        &[
            ("PORT", 9),
            ("MODE", 3),
            ("INFORMATION", 1),
            ("LOWEST", 0x3F80_0000),
            ("HIGHEST", 0x4348_0000),
        ],
    ),
    (
        Form::ModeMapping,
        Way::Up,
        b"\x08\x00\x44\x09\x03\x05\x10\x20",
        &[("PORT", 9), ("MODE", 3), ("INFORMATION", 5), ("MAPPING", 0x2010)],
    ),
    (
        Form::ModeBias,
        Way::Up,
        b"\x07\x00\x44\x09\x03\x07\x32",
        &[("PORT", 9), ("MODE", 3), ("INFORMATION", 7), ("BIAS", 50)],
    ),
    (
        Form::ModeCapabilities,
        Way::Up,
        b"\x0C\x00\x44\x09\x03\x08\x01\x02\x03\x04\x05\x06",
        &[("PORT", 9), ("MODE", 3), ("INFORMATION", 8), ("BITS", 0x0102_0304_0506)],
    ),
    (
        Form::ValueFormat,
        Way::Up,
        b"\x0A\x00\x44\x09\x03\x80\x02\x01\x05\x04",
        &[
            ("PORT", 9),
            ("MODE", 3),
            ("INFORMATION", 0x80),
            ("DATASETS", 2),
            ("KIND", 1),
            ("FIGURES", 5),
            ("DECIMALS", 4),
        ],
    ),
    (Form::PortValue, Way::Up, b"\x06\x00\x45\x09\x01\x02", &[("PORT", 9)]),
    (
        Form::InputFormat,
        Way::Up,
        b"\x0A\x00\x47\x09\x03\x05\x00\x00\x00\x01",
        &[("PORT", 9), ("MODE", 3), ("DELTA", 5), ("NOTIFY", 1)],
    ),
    (
        Form::VirtualDisconnect,
        Way::Down,
        b"\x05\x00\x61\x00\x10",
        &[("SUB", 0), ("PORT", 16)],
    ),
    (
        Form::VirtualConnect,
        Way::Down,
        b"\x06\x00\x61\x01\x05\x06",
        &[("SUB", 1), ("PORT_A", 5), ("PORT_B", 6)],
    ),
    (
        Form::StartSpeedForDegrees,
        Way::Down,
        b"\x0F\x00\x81\x09\x11\x0C\x68\x01\x00\x00\x32\xCE\x64\x7E\x03",
        &[
            ("PORT", 9),
            ("START", 17),
            ("SUB", 12),
            ("DEGREES", 360),
            ("SPEED_LEFT", 50),
            ("SPEED_RIGHT", -50),
            ("POWER", 100),
            ("END_STATE", 126),
            ("PROFILE", 3),
        ],
    ),
    (
        Form::GotoAbsolutePosition,
        Way::Down,
        b"\x0E\x00\x81\x09\x10\x0D\xFD\xFF\xFF\xFF\x32\x64\x7F\x02",
        &[
            ("PORT", 9),
            ("START", 16),
            ("SUB", 13),
            ("POSITION", -3),
            ("SPEED", 50),
            ("POWER", 100),
            ("END_STATE", 127),
            ("PROFILE", 2),
        ],
    ),
    (
        Form::GotoAbsolutePositions,
        Way::Down,
        b"\x12\x00\x81\x09\x11\x0E\x5A\x00\x00\x00\xA6\xFF\xFF\xFF\x32\x64\x7E\x03",
        &[
            ("PORT", 9),
            ("START", 17),
            ("SUB", 14),
            ("POSITION_1", 90),
            ("POSITION_2", -90),
            ("SPEED", 50),
            ("POWER", 100),
            ("END_STATE", 126),
            ("PROFILE", 3),
        ],
    ),
    (
        Form::PresetEncoders,
        Way::Down,
        b"\x0E\x00\x81\x09\x01\x14\xFD\xFF\xFF\xFF\x04\x03\x02\x01",
        &[
            ("PORT", 9),
            ("START", 1),
            ("SUB", 20),
            ("LEFT_POSITION", -3),
            ("RIGHT_POSITION", 0x0102_0304),
        ],
    ),
    (Form::OutputFeedback, Way::Up, b"\x07\x00\x82\x09\x0A\x00\x1F", &[]),
    (
        Form::CombinedSetup,
        Way::Down,
        b"\x05\x00\x42\x09\x06",
        &[("PORT", 9), ("SUB", 6)],
    ),
    (
        Form::ModeDatasets,
        Way::Down,
        b"\x08\x00\x42\x09\x01\x05\x40\x51",
        &[("PORT", 9), ("SUB", 1), ("COMBINATION", 5)],
    ),
    (
        Form::PortValueCombined,
        Way::Up,
        b"\x09\x00\x46\x09\x03\x01\x80\xFE\xFF",
        &[("PORT", 9), ("POINTERS", 0x0103)],
    ),
    (
        Form::InputFormatCombined,
        Way::Up,
        b"\x07\x00\x48\x09\x80\x03\x01",
        &[("PORT", 9), ("CONTROL", 0x80), ("POINTERS", 0x0103)],
    ),
];

/// The name of a form in the header: `HUB_ACTION` for `HubAction`.
fn name_of(form: Form) -> String {
    let mut name = String::new();
    for letter in format!("{form:?}").chars() {
        if letter.is_uppercase() && !name.is_empty() {
            name.push('_');
        }
        name.extend(letter.to_uppercase());
    }
    name
}

/// The lines of an enum of the header: names without `CASTANETASH_`, numbers, and what the comments say.
fn enum_of(name: &str) -> Vec<(String, u64, String)> {
    let header = text_of("include/castanetash.h");
    let (_, lines) = header
        .split_once(&format!("\nenum castanetash_{name} {{\n"))
        .unwrap_or_else(|| panic!("the header has no enum castanetash_{name}"));
    let lines = lines.split("\n};").next().expect("the lines of an enum");
    lines
        .lines()
        .filter_map(|line| line.trim_start().strip_prefix("CASTANETASH_"))
        .map(|line| {
            let (name, rest) = line.split_once(" = ").expect("a number");
            let number: String = rest.chars().take_while(char::is_ascii_digit).collect();
            let comment = rest.split_once("/* ").map_or("", |(_, comment)| comment);
            let comment = comment.trim_end_matches(" */").to_owned();
            (name.to_owned(), number.parse().expect("a number"), comment)
        })
        .collect()
}

/// The header's forms are the second program's, and their comments say type, way and sizes as it has them, and which of
/// them are read only.
#[test]
fn forms_are_those_of_the_second_program() {
    let forms = enum_of("form");
    assert_eq!(forms.len(), Form::COUNT);
    for ((name, number, comment), (form, way, message, _)) in forms.into_iter().zip(SAMPLES) {
        assert_eq!(name, format!("FORM_{}", name_of(form)));
        assert_eq!(number, u64::from(form.number()), "{name}");
        let wanted = format!(
            "{:02X} {}, {} bytes{}",
            message[2],
            ways_of(form, message),
            sizes_of(form, message),
            if is_read_only(way, message) { ", read only" } else { "" }
        );
        assert_eq!(comment, wanted, "{name}");
    }
}

/// Which ways a form goes: there is a message of it that goes there, with any selectors at places 3 and 4.
fn ways_of(form: Form, message: &[u8]) -> &'static str {
    let [down, up] = Way::BOTH.map(|way| {
        (0..=u16::MAX).any(|selectors| {
            let mut message = message.to_vec();
            for (byte, selector) in message.iter_mut().skip(3).zip(selectors.to_le_bytes()) {
                *byte = selector;
            }
            decode(way, &message).is_ok_and(|decoded| decoded.form == form)
        })
    });
    match (down, up) {
        (true, true) => "both",
        (true, false) => "down",
        (false, true) => "up",
        (false, false) => panic!("{form:?} has no message"),
    }
}

/// The sizes of a form's messages, the least and the greatest.
fn sizes_of(form: Form, message: &[u8]) -> String {
    let is_size = |&size: &u8| {
        let mut message = message.to_vec();
        message.truncate(size.into());
        // Each is feedback too, and no entry of a list is there twice.
        message.extend((message.len() as u8..size).map(|place| place % 32));
        message[0] = size;
        Way::BOTH
            .iter()
            .any(|&way| decode(way, &message).is_ok_and(|decoded| decoded.form == form))
    };
    let sizes: Vec<u8> = (3..=127).filter(is_size).collect();
    match sizes[..] {
        [size] => size.to_string(),
        [least, .., greatest] => format!("{least} to {greatest}"),
        [] => panic!("{form:?} has no size"),
    }
}

/// Whether a message that is read is refused in writing, for being read only.
fn is_read_only(way: Way, message: &[u8]) -> bool {
    let decoded = decode(way, message).unwrap_or_else(|refusal| panic!("{message:02X?}: {refusal:?}"));
    let open = &message[decoded.open.clone()];
    match write_row(way, &decoded.row(), open, &mut [0; castanetash::LONGEST]) {
        Ok(_) => false,
        Err(refusal) => {
            assert_eq!(refusal, Refusal::READ_ONLY, "{message:02X?}");
            true
        }
    }
}

/// Each name of a value stands for the number that the second program reads there, and each value has a name.
#[test]
fn values_are_where_the_second_program_has_them() {
    for (form, way, message, named) in SAMPLES {
        let decoded = decode(way, message).unwrap_or_else(|refusal| panic!("{form:?}: {refusal:?}"));
        assert_eq!(decoded.form, form);
        let numbers: BTreeSet<i64> = named.iter().map(|&(_, number)| number).collect();
        assert_eq!(numbers.len(), named.len(), "{form:?} has equal values");
        if named.is_empty() {
            assert!(decoded.values().is_empty(), "{form:?}");
            continue;
        }
        let in_header = enum_of(&name_of(form).to_lowercase());
        assert_eq!(in_header.len(), named.len(), "{form:?}");
        for ((name, place, _), &(wanted, number)) in in_header.iter().zip(named) {
            assert_eq!(*name, format!("{}_{wanted}", name_of(form)));
            let value = place.checked_sub(castanetash::row::VALUES as u64).expect("a value");
            assert_eq!(decoded.values()[value as usize] as i64, number, "{name}");
        }
        // The eight entries of a list have one name.
        let more = if form == Form::PortCombinations { 7 } else { 0 };
        assert_eq!(in_header.len() + more, decoded.values().len(), "{form:?}");
        assert!(castanetash::row::VALUES + decoded.values().len() <= castanetash::ROW_CELLS);
    }
}

#[test]
fn refusals_are_those_of_the_second_program() {
    let wanted = [
        ("NO_BYTES", Refusal::NO_BYTE.number),
        ("TOO_LONG", Refusal::LENGTH_BIT.number),
        ("LENGTH", Refusal::LENGTH.number),
        ("HUB_ID", Refusal::HUB_ID.number),
        ("TYPE", Refusal::MESSAGE_TYPE.number),
        ("SIZE", Refusal::size(3).number),
        ("FIELD", Refusal::field(3).number),
        ("OUTPUT", Refusal::OUTPUT.number),
        ("TABLE", Refusal::TABLE.number),
        ("PORT_ABSENT", Refusal::PORT_ABSENT.number),
        ("PORT_PRESENT", Refusal::PORT_PRESENT.number),
        ("PAIR", Refusal::PAIR.number),
        ("TABLE_FULL", Refusal::FULL.number),
        ("NO_MODE", Refusal::NO_MODE.number),
        ("NO_FORMAT", Refusal::NO_FORMAT.number),
        ("VALUE_SIZE", Refusal::VALUE_SIZE.number),
        ("NO_DATASET", Refusal::NO_DATASET.number),
        ("NOT_FINITE", Refusal::NOT_FINITE.number),
        ("LOG_RECORD", Refusal::LOG_RECORD.number),
        ("NOT_COMBINED", Refusal::NOT_COMBINED.number),
        ("POINTERS", Refusal::POINTERS.number),
        ("NOT_VIRTUAL", Refusal::NOT_VIRTUAL.number),
        ("READ_ONLY", Refusal::READ_ONLY.number),
        ("ROW", 255),
    ];
    let wanted = wanted.map(|(name, number)| (format!("REFUSED_{name}"), u64::from(number)));
    let refusals: Vec<_> = enum_of("refusal")
        .into_iter()
        .map(|(name, number, _)| (name, number))
        .collect();
    assert_eq!(refusals, wanted);
}

/// Sizes, and how many cells each row has: one more than its last cell's number.
#[test]
fn sizes_are_those_of_the_second_program() {
    let numbers = header_numbers();
    for (name, number) in [
        ("TABLE_CELLS", TABLE_CELLS),
        ("MOST_PORTS", PLACES),
        ("RECORD", LOG_RECORD),
        ("STATE_NOTHING_ASKED", State::NothingAsked as usize),
        ("STATE_UNANSWERED", State::Unanswered as usize),
        ("STATE_AS_ASKED", State::AsAsked as usize),
        ("STATE_OTHERWISE", State::Otherwise as usize),
    ] {
        assert_eq!(numbers[name], number as u64, "{name}");
    }
    let places = |name| enum_of(name).into_iter().map(|(_, place, _)| place);
    for (cells, name) in [
        ("DATASET_CELLS", "dataset_cell"),
        ("FORMAT_CELLS", "format_cell"),
        ("TOTALS_CELLS", "totals"),
    ] {
        assert!(places(name).eq(0..numbers[cells]), "{cells}");
    }
    // The sixteen entries of each list have one name.
    let entries = numbers["MOST_ENTRIES"];
    let [list, taken] = ["LIST", "TAKEN"].map(|name| numbers[&format!("PORT_CELL_{name}")]);
    assert!(places("port_cell").eq((0..=list + 1).chain([taken, taken + 1])));
    assert_eq!(
        [list + 1 + entries, taken + 1 + entries],
        [taken, numbers["PORT_CELLS"]]
    );
    let longest = |length: u64| {
        let mut message = vec![0; length as usize];
        message[..4].copy_from_slice(&[length as u8, 0, 0x45, 9]);
        decode(Way::Up, &message).is_ok()
    };
    assert!(longest(numbers["LONGEST"]) && !longest(numbers["LONGEST"] + 1));
    let most = |datasets: u64| decode(Way::Up, &[10, 0, 0x44, 9, 3, 0x80, datasets as u8, 1, 5, 4]).is_ok();
    assert!(most(numbers["MOST_DATASETS"]) && !most(numbers["MOST_DATASETS"] + 1));
    let most = |entries: u64| {
        let mut message = vec![6 + entries as u8, 0, 0x42, 9, 1, 0];
        message.extend((0..entries).map(|entry| entry as u8));
        decode(Way::Down, &message).is_ok()
    };
    assert!(most(entries) && !most(entries + 1));
}

/// Each function for Rust hands its arguments on, and gives the library's answer.
#[test]
fn functions_for_rust_call_the_library() {
    let refused = |number, place| Err(Refused { number, place });
    let attached = b"\x0F\x00\x04\x09\x01\x26\x00\x00\x00\x00\x10\x00\x00\x00\x10";
    let format = b"\x0A\x00\x44\x09\x03\x80\x02\x01\x05\x04";
    let asked = b"\x0A\x00\x41\x09\x03\x05\x00\x00\x00\x01";
    let answered = b"\x0A\x00\x47\x09\x03\x05\x00\x00\x00\x01";
    let value = b"\x08\x00\x45\x09\x07\x00\xFE\xFF";
    let entries: [(u8, Way, &[u8], u16); 4] = [
        (1, Way::Up, attached, 0),
        (1, Way::Up, format, 0),
        (0, Way::Down, asked, 301),
        (1, Way::Up, answered, 0),
    ];

    let mut row = [7; 17];
    assert_eq!(castanetash::read(asked, 0, &mut row), Ok(castanetash::ROW_CELLS));
    assert_eq!(row, [21, 0, 0, 4, 9, 3, 5, 1, 0, 0, 0, 0, 0, 0, 0, 0, 7]);
    assert_eq!(row[castanetash::row::COUNT], 4);
    assert_eq!(castanetash::read(asked, 1, &mut row), refused(5, 2));
    assert_eq!(castanetash::read(asked, 0, &mut row[..15]), refused(255, 0));
    // The place of a wrong size is the size that was wanted: a value has five bytes or more.
    let no_value = b"\x04\x00\x45\x09";
    assert_eq!(castanetash::read(no_value, 1, &mut row), refused(6, 5));
    let mut out = [7; 11];
    assert_eq!(castanetash::write(&row, 0, &[], &mut out), Ok(10));
    assert_eq!(out, *b"\x0A\x00\x41\x09\x03\x05\x00\x00\x00\x01\x07");
    // A 41 has ten bytes.
    assert_eq!(castanetash::write(&row, 0, &[1], &mut out), refused(6, 10));
    row[castanetash::input_format_setup::MODE] = 300;
    assert_eq!(castanetash::write(&row, 0, &[], &mut out), refused(7, 4));
    // A 12 is only read.
    assert_eq!(
        castanetash::read(b"\x03\x00\x12", 0, &mut row),
        Ok(castanetash::ROW_CELLS)
    );
    assert_eq!(row, [17, 0, 0, 0, 0, 0, 0, 0, 0, 0, 0, 0, 0, 0, 0, 0, 7]);
    assert_eq!(castanetash::write(&row, 0, &[], &mut out), refused(23, 0));
    assert_eq!(castanetash::write(&row, 0, &[1], &mut []), refused(23, 0));
    assert_eq!(castanetash::write(&row, 1, &[], &mut out), refused(5, 2));
    assert_eq!(out, *b"\x0A\x00\x41\x09\x03\x05\x00\x00\x00\x01\x07");

    // A command for two motors, with a speed that is none; feedback, which is open bytes.
    let turn = b"\x0F\x00\x81\x09\x11\x0C\x68\x01\x00\x00\x32\xCE\x64\x7E\x03";
    let mut out = [7; 16];
    assert_eq!(castanetash::read(turn, 0, &mut row), Ok(castanetash::ROW_CELLS));
    let minus_fifty = -50_i64 as u64;
    assert_eq!(
        row,
        [34, 0, 0, 9, 9, 17, 12, 360, 50, minus_fifty, 100, 126, 3, 0, 0, 0, 7]
    );
    assert_eq!(castanetash::write(&row, 0, &[], &mut out), Ok(15));
    assert_eq!(
        &out,
        b"\x0F\x00\x81\x09\x11\x0C\x68\x01\x00\x00\x32\xCE\x64\x7E\x03\x07"
    );
    row[castanetash::start_speed_for_degrees::SPEED_RIGHT] = -101_i64 as u64;
    assert_eq!(castanetash::write(&row, 0, &[], &mut out), refused(7, 11));
    let feedback = b"\x07\x00\x82\x09\x0A\x00\x1F";
    assert_eq!(castanetash::read(feedback, 1, &mut row), Ok(castanetash::ROW_CELLS));
    assert_eq!(row, [38, 3, 4, 0, 0, 0, 0, 0, 0, 0, 0, 0, 0, 0, 0, 0, 7]);
    assert_eq!(castanetash::write(&row, 1, &feedback[3..], &mut out), Ok(7));
    assert_eq!(out[..7], *feedback);
    assert_eq!(castanetash::write(&row, 1, &feedback[4..], &mut out), refused(6, 5));
    assert_eq!(castanetash::write(&row, 1, &[9, 0x20], &mut out), refused(7, 4));

    let mut table = [7; TABLE_CELLS];
    let mut second = Table::default();
    assert_eq!(castanetash::empty(&mut table[1..]), refused(9, 0));
    assert_eq!(castanetash::empty(&mut table), Ok(0));
    for (byte, way, message, experiment) in entries {
        assert_eq!(castanetash::offer(&mut table, message, byte, experiment), Ok(0));
        assert_eq!(second.offer(way, message, experiment), Ok(()));
    }
    assert_eq!(table, second.to_cells());
    assert_eq!(castanetash::offer(&mut table, attached, 1, 0), refused(11, 0));
    assert_eq!(castanetash::offer(&mut table, no_value, 1, 0), refused(6, 5));
    assert_eq!(castanetash::offer(&mut table, turn, 0, 0), refused(22, 0));
    // Port 0 isn't present.
    assert_eq!(castanetash::offer(&mut table, feedback, 1, 0), refused(10, 0));
    assert_eq!(castanetash::offer(&mut table, b"\x05\x00\x82\x09\x0A", 1, 0), Ok(0));
    assert_eq!(table, second.to_cells());

    let minus_two = -2i64 as u64;
    let mut row = [70; 7];
    assert_eq!(castanetash::dataset(&table, value, 1, 1, &mut row), Ok(6));
    assert_eq!(row, [0, minus_two, 9, 3, 2, 301, 70]);
    assert_eq!(castanetash::dataset(&table, value, 1, 2, &mut row), refused(17, 0));
    assert_eq!(castanetash::dataset(&table, no_value, 1, 0, &mut row), refused(6, 5));
    let mut rows = [70; 13];
    assert_eq!(castanetash::values(&table, value, 1, &mut rows), Ok(2));
    assert_eq!(rows, [0, 7, 9, 3, 2, 301, 0, minus_two, 9, 3, 2, 301, 70]);
    assert_eq!(castanetash::values(&table, value, 1, &mut rows[..11]), refused(255, 0));
    assert_eq!(castanetash::values(&table, no_value, 1, &mut rows), refused(6, 5));

    // Port 9 is combined for a while: the list is mode 3's second dataset alone.
    let list = b"\x07\x00\x42\x09\x01\x05\x31";
    let combined = b"\x07\x00\x48\x09\x00\x01\x00";
    let combined_value = b"\x08\x00\x46\x09\x01\x00\xFE\xFF";
    let mut cells = [7; 17];
    assert_eq!(castanetash::read(list, 0, &mut cells), Ok(castanetash::ROW_CELLS));
    assert_eq!(cells, [40, 6, 1, 3, 9, 1, 5, 0, 0, 0, 0, 0, 0, 0, 0, 0, 7]);
    assert_eq!(castanetash::write(&cells, 0, &[0x31], &mut out), Ok(7));
    assert_eq!(out[..7], *list);
    assert_eq!(castanetash::write(&cells, 0, &[0x31, 0x31], &mut out), refused(7, 7));
    assert_eq!(castanetash::write(&cells, 0, &[], &mut out), refused(6, 7));
    let mut changed = table;
    assert_eq!(castanetash::offer(&mut changed, combined, 1, 0), refused(21, 0));
    assert_eq!(castanetash::offer(&mut changed, combined_value, 1, 0), refused(20, 0));
    assert_eq!(castanetash::offer(&mut changed, list, 0, 302), Ok(0));
    assert_eq!(castanetash::offer(&mut changed, combined, 1, 0), Ok(0));
    assert_eq!(castanetash::dataset(&changed, combined_value, 1, 0, &mut row), Ok(6));
    assert_eq!(row, [0, minus_two, 9, 3, 2, 302, 70]);
    assert_eq!(castanetash::values(&changed, combined_value, 1, &mut rows), Ok(1));
    assert_eq!(rows[..6], [0, minus_two, 9, 3, 2, 302]);
    assert_eq!(castanetash::values(&changed, value, 1, &mut rows), refused(14, 0));
    let mut cells = [70; 50];
    assert_eq!(castanetash::port(&changed, 9, &mut cells), Ok(49));
    assert_eq!(cells[..14], [1, 38, 0, 0, 2, 2, 0, 0, 0, 2, 0, 0, 0, 302]);
    assert_eq!(cells[14..18], [1, 1, 0x31, 0]);
    assert_eq!(cells[32..35], [1, 0x31, 0]);
    assert_eq!(cells[49], 70);

    let mut ports = [70; 2];
    assert_eq!(castanetash::ports(&table, &mut ports), Ok(1));
    assert_eq!(ports, [9, 70]);
    assert_eq!(castanetash::ports(&table, &mut []), refused(255, 0));
    let mut row = [70; 50];
    assert_eq!(castanetash::port(&table, 9, &mut row), Ok(49));
    assert_eq!(row[..14], [1, 38, 0, 0, 2, 1, 3, 5, 1, 1, 3, 5, 1, 301]);
    assert_eq!(row[14..], [[0; 35].as_slice(), &[70]].concat());
    assert_eq!(castanetash::port(&table, 9, &mut row[..48]), refused(255, 0));
    let mut row = [70; 6];
    assert_eq!(castanetash::format(&table, 9, 3, &mut row), Ok(5));
    assert_eq!(row, [1, 2, 1, 5, 4, 70]);
    assert_eq!(castanetash::format(&table, 9, 3, &mut row[..4]), refused(255, 0));

    let log = [log_record(0, Way::Up, value, 0), log_record(0, Way::Up, attached, 0)].concat();
    let mut totals = [40, 3];
    let mut text = [b'-'; castanetash::LINE_ROOM];
    let less = &mut text[1..];
    assert_eq!(castanetash::read_block(&mut table, &mut totals, &log, less), Ok(0));
    assert_eq!(totals, [40, 3]);
    assert_eq!(
        castanetash::read_block(&mut table, &mut totals, &log, &mut text),
        Ok(20)
    );
    assert_eq!(&text[..21], b"41 0 9 3 2 301 7 -2\n-");
    assert_eq!(totals, [41, 3]);
    let rest = &log[LOG_RECORD..];
    assert_eq!(castanetash::read_block(&mut table, &mut totals, rest, &mut text), Ok(6));
    assert_eq!(&text[..6], b"42 11\n");
    assert_eq!(totals, [42, 4]);
    assert_eq!(
        castanetash::read_block(&mut table, &mut totals[1..], rest, &mut text),
        refused(255, 0)
    );
}

/// What the library answers of ports stands where the names say, by the second program's own answers: of a virtual port
/// that was answered otherwise, of its members, one of them asked and not answered, of a port with nothing, of one that
/// is combined and was asked for another list, and of an absent one.
#[test]
fn cells_of_a_port_are_named_for_what_they_hold() {
    let entries: [(Way, &[u8], u16); 10] = [
        (
            Way::Up,
            b"\x0F\x00\x04\x05\x01\x26\x00\x00\x00\x00\x10\x00\x00\x00\x10",
            0,
        ),
        (
            Way::Up,
            b"\x0F\x00\x04\x06\x01\x27\x00\x00\x00\x00\x10\x00\x00\x00\x10",
            0,
        ),
        (Way::Up, b"\x09\x00\x04\x09\x02\x28\x00\x05\x06", 0),
        (Way::Down, b"\x0A\x00\x41\x05\x02\x07\x00\x00\x00\x00", 301),
        (Way::Down, b"\x0A\x00\x41\x09\x03\x0A\x00\x00\x00\x01", 302),
        (Way::Up, b"\x0A\x00\x47\x09\x04\x0B\x00\x00\x00\x00", 0),
        (
            Way::Up,
            b"\x0F\x00\x04\x0A\x01\x25\x00\x00\x00\x00\x10\x00\x00\x00\x10",
            0,
        ),
        (Way::Down, b"\x09\x00\x42\x0A\x01\x00\x10\x21\x32", 303),
        (Way::Up, b"\x07\x00\x48\x0A\x00\x05\x00", 0),
        (Way::Down, b"\x08\x00\x42\x0A\x01\x00\x43\x54", 304),
    ];
    let attached = b"\x0F\x00\x04\x07\x01\x29\x00\x00\x00\x00\x10\x00\x00\x00\x10";
    let mut second = Table::default();
    for (way, message, experiment) in entries.into_iter().chain([(Way::Up, &attached[..], 0)]) {
        assert_eq!(second.offer(way, message, experiment), Ok(()));
    }
    let table = second.to_cells();
    for port in [5, 6, 7, 8, 9, 10] {
        let mut row = [70; castanetash::PORT_CELLS];
        assert_eq!(castanetash::port(&table, port, &mut row), Ok(castanetash::PORT_CELLS));
        let wanted = named_cells(second.port(port));
        let cells = wanted.map(|(name, place, _)| (name, place, row[place]));
        assert_eq!(cells, wanted, "port {port}");
        use castanetash::{port_cell, MOST_ENTRIES};
        let [list, taken] = lists(second.port(port)).map(|list| {
            let mut entries = [0; MOST_ENTRIES];
            for (cell, &entry) in entries.iter_mut().zip(list.iter().flat_map(List::entries)) {
                *cell = entry.into();
            }
            entries
        });
        assert_eq!(row[port_cell::LIST_ENTRIES..][..MOST_ENTRIES], list, "port {port}");
        assert_eq!(row[port_cell::TAKEN_ENTRIES..][..MOST_ENTRIES], taken, "port {port}");
    }
}

/// The list that a port keeps, and the one that its 48 took over.
fn lists(port: Option<Port>) -> [Option<List>; 2] {
    let taken = match port.and_then(|it| it.answered) {
        Some(Answered::Combined { list, .. }) => Some(list),
        _ => None,
    };
    [port.and_then(|it| it.list), taken]
}

/// The cells of a port but for the entries of its lists: their names, their places by these names, and what has to stand
/// there.
fn named_cells(port: Option<Port>) -> [(&'static str, usize, u64); 17] {
    use castanetash::{port_cell, state, wiring};
    let (kind, partner, second) = match port.map(|it| it.wiring) {
        None => (wiring::ABSENT, 0, 0),
        Some(Wiring::Unjoined) => (wiring::UNJOINED, 0, 0),
        Some(Wiring::Joined { virtual_port }) => (wiring::JOINED, virtual_port, 0),
        Some(Wiring::Virtual { port_a, port_b }) => (wiring::VIRTUAL, port_a, port_b),
    };
    let state = match port.map(|it| it.state) {
        None | Some(State::NothingAsked) => state::NOTHING_ASKED,
        Some(State::Unanswered) => state::UNANSWERED,
        Some(State::AsAsked) => state::AS_ASKED,
        Some(State::Otherwise) => state::OTHERWISE,
    };
    let single = |setup: Setup| [1, setup.mode.into(), setup.delta.into(), setup.notify.into()];
    let [asked, asked_mode, asked_delta, asked_notify] = match port.and_then(|it| it.asked) {
        None => [0; 4],
        Some(Asked::Single(setup)) => single(setup),
        Some(Asked::List) => [2, 0, 0, 0],
    };
    let answer = port.and_then(|it| it.answered);
    let [answered, answered_mode, answered_delta, answered_notify] = match answer {
        None => [0; 4],
        Some(Answered::Single(setup)) => single(setup),
        Some(Answered::Combined { .. }) => [2, 0, 0, 0],
    };
    let pointers = match answer {
        Some(Answered::Combined { pointers, .. }) => pointers,
        _ => 0,
    };
    let [list, taken] = lists(port).map(|list| list.map_or(0, |list| list.entries().len() as u64));
    [
        ("wiring", port_cell::WIRING, kind),
        ("device", port_cell::DEVICE, port.map_or(0, |it| it.device.into())),
        ("partner", port_cell::PARTNER, partner.into()),
        ("second", port_cell::SECOND, second.into()),
        ("state", port_cell::STATE, state),
        ("asked", port_cell::ASKED, asked),
        ("asked mode", port_cell::ASKED_MODE, asked_mode),
        ("asked delta", port_cell::ASKED_DELTA, asked_delta),
        ("asked notify", port_cell::ASKED_NOTIFY, asked_notify),
        ("answered", port_cell::ANSWERED, answered),
        ("answered mode", port_cell::ANSWERED_MODE, answered_mode),
        ("answered delta", port_cell::ANSWERED_DELTA, answered_delta),
        ("answered notify", port_cell::ANSWERED_NOTIFY, answered_notify),
        (
            "experiment",
            port_cell::EXPERIMENT,
            port.map_or(0, |it| it.experiment.into()),
        ),
        ("pointers", port_cell::POINTERS, pointers.into()),
        ("list", port_cell::LIST, list),
        ("taken", port_cell::TAKEN, taken),
    ]
}

/// The cells of a format, and the kinds of formats and datasets, stand for what their names say.
#[test]
fn cells_of_a_format_are_named_for_what_they_hold() {
    use castanetash::{dataset_cell, dataset_kind, format_cell, format_kind};
    let attached = b"\x0F\x00\x04\x09\x01\x26\x00\x00\x00\x00\x10\x00\x00\x00\x10";
    let answered = b"\x0A\x00\x47\x09\x03\x05\x00\x00\x00\x01";
    for (kind, width, dataset) in [
        (format_kind::INT8, 1, dataset_kind::WHOLE),
        (format_kind::INT16, 2, dataset_kind::WHOLE),
        (format_kind::INT32, 4, dataset_kind::WHOLE),
        (format_kind::FLOAT, 4, dataset_kind::FLOAT),
    ] {
        let format = [10, 0, 0x44, 9, 3, 0x80, 5, kind as u8, 7, 6];
        let mut second = Table::default();
        for message in [&attached[..], &answered[..], &format] {
            assert_eq!(second.offer(Way::Up, message, 0), Ok(()));
        }
        let table = second.to_cells();
        let mut row = [70; castanetash::FORMAT_CELLS];
        assert_eq!(
            castanetash::format(&table, 9, 3, &mut row),
            Ok(castanetash::FORMAT_CELLS)
        );
        assert_eq!(row[format_cell::KNOWN], 1);
        assert_eq!(row[format_cell::DATASETS], 5);
        assert_eq!(row[format_cell::KIND], kind);
        assert_eq!(row[format_cell::FIGURES], 7);
        assert_eq!(row[format_cell::DECIMALS], 6);

        // Five datasets, each of them a 1 in its last byte.
        let mut value = vec![4 + 5 * width, 0, 0x45, 9];
        for _ in 0..5 {
            value.resize(value.len() + usize::from(width) - 1, 0);
            value.push(1);
        }
        let mut row = [70; castanetash::DATASET_CELLS];
        assert_eq!(castanetash::dataset(&table, &value, 1, 4, &mut row), Ok(row.len()));
        assert_eq!(row[dataset_cell::KIND], dataset);
        assert_eq!(row[dataset_cell::VALUE], 1 << (8 * (width - 1)));
    }
}
