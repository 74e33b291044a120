//! Large frames in the machine code. A function whose frame has many pages touches them one by one when it
//! begins, and counts them in the register r11. The compiler may put this after the function's first
//! tests, and keeps nothing that r11 holds by then. So nothing but the saving of registers may come before.

use std::process::Command;

use host::testing::files::repository;

/// How the touching begins: r11 takes the stack pointer.
const TOUCHING: &str = "mov %rsp,%r11";

/// The functions of a listing, each with its instructions, spaces made one.
fn functions(listing: &str) -> Vec<(String, Vec<String>)> {
    let mut functions = Vec::new();
    for line in listing.lines() {
        if let Some((_, name)) = line
            .strip_suffix(">:")
            .and_then(|line| line.split_once(" <"))
        {
            functions.push((name.to_string(), Vec::new()));
        } else if let (Some((_, code)), Some((_, all))) =
            (line.split_once(":\t"), functions.last_mut())
        {
            all.push(code.split_whitespace().collect::<Vec<_>>().join(" "));
        }
    }
    functions
}

/// What comes before the touching of pages, if a function has it.
fn before(code: &[String]) -> Option<&[String]> {
    let at = code.iter().position(|line| line == TOUCHING)?;
    Some(&code[..at])
}

/// Saves a register, or marks where a jump may lead to.
fn is_saving(line: &String) -> bool {
    line.starts_with("push ") || line == "endbr64"
}

/// The functions with large frames; each touches its pages first.
fn large(listing: &str) -> Result<Vec<String>, String> {
    let mut large = Vec::new();
    for (name, code) in functions(listing) {
        let Some(first) = before(&code) else { continue };
        if !first.iter().all(is_saving) {
            return Err(format!("{name}: {first:?} before its pages are touched"));
        }
        large.push(name);
    }
    Ok(large)
}

fn listing(file: &str) -> String {
    let output = Command::new("objdump")
        .args(["--disassemble", "--no-show-raw-insn"])
        .arg(repository().join("target").join(file))
        .output()
        .expect("objdump");
    assert!(output.status.success(), "{output:?}");
    String::from_utf8(output.stdout).expect("text")
}

#[test]
fn pages_are_touched_first() {
    for file in ["staticlib/libpolar.a", "bin/receive"] {
        let large = large(&listing(file)).unwrap_or_else(|fault| panic!("{file}: {fault}"));
        assert!(!large.is_empty(), "{file} has no large frame");
    }
}

#[test]
fn a_register_that_is_lost_is_noticed() {
    let listing = "0000000000000000 <f>:\n   0:\tmovzwl 0x2(%rdi),%r11d\n   5:\tpush   %rbp\n   \
                   6:\tmov    %rsp,%r11\n   9:\tsub    $0xb000,%r11\n";
    assert!(large(listing).is_err());
    let first = listing.replace("   0:\tmovzwl 0x2(%rdi),%r11d\n", "");
    assert_eq!(large(&first), Ok(vec!["f".to_string()]));
}
