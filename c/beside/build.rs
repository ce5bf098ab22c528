//! Writes the table of the lines that the public crate has as structs, from the repository's own table of instructions, whose head
//! says what its columns are; and links a second archive, whose path is `READ_INST`, if there is one.
use std::env::var;
use std::fs;

/// A register that the instruction fixes.
fn fixed(name: &str) -> Option<u8> {
    match name {
        "al" | "ax" | "eax" | "rax" => Some(0),
        "rcx" => Some(1),
        "edx" | "rdx" => Some(2),
        "rbx" => Some(3),
        _ => None,
    }
}

/// What a line takes, as the fields of a `Line`, and the arguments of its struct's `new`.
fn operands(column: &str) -> (String, Vec<String>) {
    let (mut registers, mut place, mut imm, mut arguments) = (0, "Nothing", "None".to_string(), Vec::new());
    for operand in column.split_whitespace() {
        let (name, words) = operand.split_once(':').unwrap_or((operand, ""));
        if let Some(number) = fixed(name) {
            arguments.push(format!("{number}u8"));
        } else if let Some(bits) = name.strip_prefix("imm") {
            let is_signed = words.split(':').any(|word| word.starts_with("sx") || word == "distance");
            let kind = format!("{}{bits}", if is_signed { "i" } else { "u" });
            imm = format!("Some(({kind}::MIN as i64, {kind}::MAX as i64))");
            arguments.push(format!("imm(o) as {kind}"));
        } else if name.starts_with("rm") || name.starts_with("xmm_m") {
            place = "Either";
            arguments.push(if name.starts_with("rm") { "gpr_mem(o)" } else { "xmm_mem(o)" }.into());
        } else if name.starts_with('m') {
            place = "Memory";
            arguments.push("memory(&o.place)".into());
        } else if name != "nop" {
            arguments.push(if registers == 0 { "register(o.reg)" } else { "register(o.vvvv)" }.into());
            registers += 1;
        }
    }
    (format!("reg: {}, vvvv: {}, place: Takes::{place}, imm: {imm}", registers > 0, registers > 1), arguments)
}

/// The table: a line for each row that a struct has, and of the other structs the row that reads them.
fn table(text: &str) -> String {
    let (mut lines, mut others) = (String::new(), String::new());
    for row in text.lines().filter(|row| row.contains('|') && !row.starts_with('#')) {
        let columns: Vec<&str> = row.split('|').map(str::trim).collect();
        let [name, code, column, words, ..] = columns[..] else { panic!("{row}") };
        let (takes, arguments) = operands(column);
        let make = format!("|o| Inst::{name}(inst::{name}::new({}))", arguments.join(", ")).replace("|o|", if arguments.is_empty() { "|_|" } else { "|o|" });
        let number = |row: &str| format!("sys::HQ_LINE_{}", row.to_uppercase());
        // Of an 8-bit place beside a digit of 4 to 7 the public crate puts a prefix that nothing asks for.
        let is_prefixed = column.starts_with("rm8") && ["/4", "/5", "/6", "/7"].iter().any(|digit| code.ends_with(digit));
        let is = |word: &str| words.split(' ').any(|given| given == word);
        let prints = ["shift", "exchange", "compare"].into_iter().find(|word| is(word));
        let line = |row| {
            let number = number(row);
            format!("    Line {{ name: \"{name}\", number: {number}, {takes}, is_prefixed: {is_prefixed}, prints: {prints:?}, make: {make} }},\n")
        };
        if let Some(shared) = code.strip_prefix("= ") {
            others += &line(shared);
        } else if !is("row") {
            lines += &line(name);
        }
    }
    format!("pub const LINES: &[Line] = &[\n{lines}];\npub const OTHERS: &[Line] = &[\n{others}];\n")
}

fn main() {
    let path = format!("{}/../../table/instructions.txt", var("CARGO_MANIFEST_DIR").unwrap());
    println!("cargo::rerun-if-changed={path}");
    println!("cargo::rerun-if-env-changed=READ_INST");
    println!("cargo::rustc-check-cfg=cfg(read_inst)");
    fs::write(format!("{}/table.rs", var("OUT_DIR").unwrap()), table(&fs::read_to_string(path).unwrap())).unwrap();
    if let Ok(archive) = var("READ_INST") {
        let archive = fs::canonicalize(archive).unwrap();
        let archive = archive.display();
        println!("cargo::rustc-cfg=read_inst");
        println!("cargo::rustc-link-arg={archive}");
        println!("cargo::rerun-if-changed={archive}");
    }
}
