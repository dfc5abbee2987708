//! include/g7110.h and the archive, as programs in C and C++ use them: compiled without a warning, linked, run.

#![cfg(feature = "writer")]

use std::collections::BTreeMap;
use std::path::{Path, PathBuf};
use std::process::Command;
use tests::program::{command, repository};
use tests::say;
use tests::stack::{bound, frames, LIBRARY};

const STRICT: [&str; 5] = ["-Wall", "-Wextra", "-Wpedantic", "-Werror", "-O1"];

/// The shipped archive, for x86-64, whichever one the tests in Rust link.
fn archive() -> PathBuf {
    repository().join("target/staticlib/libg7110.a")
}

/// A compiler with the switches of all of them. CC and CXX may name another.
fn compiler_of(compiler: &str, standard: &str) -> Command {
    let named = std::env::var_os(if compiler == "cc" { "CC" } else { "CXX" });
    let mut command = Command::new(named.unwrap_or(compiler.into()));
    command.arg(standard).args(STRICT).arg("-I").arg(repository().join("include"));
    command
}

/// Compiles a program of tests/c with the archive, and gives what it prints.
fn run(compiler: &str, standard: &str, file: &str, more: &[&str]) -> String {
    let program = Path::new(env!("CARGO_TARGET_TMPDIR")).join(file.replace('.', "-"));
    let mut compile = compiler_of(compiler, standard);
    compile.arg(repository().join("tests/c").join(file)).arg(archive()).args(more).arg("-o").arg(&program);
    let built = compile.output().unwrap_or_else(|fault| panic!("{compiler}: {fault}"));
    assert!(built.status.success(), "{file}:\n{}", String::from_utf8_lossy(&built.stderr));
    let ran = command(&program).output().expect("it was built");
    let said = String::from_utf8_lossy(&ran.stdout).into_owned();
    assert!(ran.status.success(), "{file}: {}\n{said}", ran.status);
    said
}

/// The blocks of C: those of the header by the words before them, up to the first comma; those of a page of docs/ by its name and the
/// heading above them, numbered where there are more.
fn blocks_of_header() -> BTreeMap<String, String> {
    let header = std::fs::read_to_string(repository().join("include/g7110.h")).unwrap();
    let lines: Vec<&str> = header.lines().collect();
    let mut blocks = BTreeMap::new();
    for (at, line) in lines.iter().enumerate().skip(2) {
        let told = lines[at - 2].strip_prefix(" *   ").and_then(|words| words.strip_suffix(':'));
        let (Some(told), " *", Some(_)) = (told, lines[at - 1], line.strip_prefix(" *     ")) else { continue };
        let code = lines[at..].iter().map_while(|line| line.strip_prefix(" *     ")).map(|line| format!("{line}\n"));
        let there = blocks.insert(name_of(told.split(", ").next().unwrap_or("")), code.collect());
        assert!(there.is_none(), "two blocks behind {told}");
    }
    blocks
}

fn blocks_of_docs() -> BTreeMap<String, String> {
    let mut blocks = BTreeMap::new();
    for page in std::fs::read_dir(repository().join("docs")).unwrap().map(|page| page.unwrap().path()) {
        let stem = page.file_stem().unwrap().to_string_lossy().to_lowercase();
        let text = if page.is_file() { std::fs::read_to_string(&page).unwrap() } else { continue };
        let (mut heading, mut code, mut number) = (String::new(), None::<String>, 0);
        for line in text.lines() {
            match (&mut code, line) {
                (None, "```c") => code = Some(String::new()),
                (None, line) if line.starts_with("## ") => (heading, number) = (name_of(&line[3..]), 0),
                (Some(_), "```") => {
                    number += 1;
                    let name =
                        if number > 1 { format!("{stem}_{heading}_{number}") } else { format!("{stem}_{heading}") };
                    blocks.insert(name, code.take().unwrap());
                }
                (Some(code), line) => *code += &format!("{line}\n"),
                _ => {}
            }
        }
        assert!(code.is_none(), "{stem}: a block that does not end");
    }
    blocks
}

fn name_of(words: &str) -> String {
    let words = words.split(|c: char| !c.is_ascii_alphanumeric()).filter(|word| !word.is_empty());
    words.map(str::to_lowercase).collect::<Vec<_>>().join("_")
}

/// Writes each block to a file of its own, for a program in C to include, and gives the folder.
fn blocks_written(folder: &str) -> String {
    let folder = Path::new(env!("CARGO_TARGET_TMPDIR")).join(folder);
    std::fs::create_dir_all(&folder).unwrap();
    for (name, code) in blocks_of_header().into_iter().chain(blocks_of_docs()) {
        std::fs::write(folder.join(name + ".h"), code).unwrap();
    }
    format!("-I{}", folder.display())
}

/// Every block of C of the header and of the pages, in C and in C++: those of the header, which are statements, are all in tests/c/blocks.c,
/// and so are those of a page that stand alone; each of a page is compiled by itself too.
#[test]
fn every_block_of_c() {
    let include = blocks_written("blocks");
    let source = std::fs::read_to_string(repository().join("tests/c/blocks.c")).unwrap();
    let (header, docs) = (blocks_of_header(), blocks_of_docs());
    for name in header.keys() {
        assert!(
            source.contains(&format!("#include \"{name}.h\"")),
            "tests/c/blocks.c does not run the header's block {name}"
        );
    }
    for (compiler, standard, ending) in [("cc", "-std=c99", "c"), ("c++", "-std=c++11", "cpp")] {
        let said = run(compiler, standard, &format!("blocks.{ending}"), &["-Wconversion", &include]);
        assert!(said.ends_with("\nok\n"), "{said}");
        for name in docs.keys() {
            let file = Path::new(env!("CARGO_TARGET_TMPDIR")).join("blocks").join(format!("{name}.{ending}"));
            let uses =
                format!("#include \"g7110.h\"\n#include <stdio.h>\n#include <string.h>\n#include \"{name}.h\"\n");
            std::fs::write(&file, uses).unwrap();
            let mut compile = compiler_of(compiler, standard);
            compile.args(["-Wconversion", "-c", &include, "-o"]).arg(file.with_extension("o")).arg(&file);
            let built = compile.output().unwrap_or_else(|fault| panic!("{compiler}: {fault}"));
            assert!(built.status.success(), "{name}:\n{}", String::from_utf8_lossy(&built.stderr));
        }
    }
    assert!(header.len() >= 8 && docs.len() >= 4, "{:?} {:?}", header.keys(), docs.keys());
    let both = "as C99 and C++11 without a warning, -Wconversion too";
    say(&format!(
        "compared: {} blocks of C of the header and {} of docs/: compiled {both}, and run\n",
        header.len(),
        docs.len()
    ));
}

/// The names of the refusals that a program in C gets are those of the list of numbers.
#[test]
fn the_names_of_refusals() {
    let header = std::fs::read_to_string(repository().join("include/g7110.h")).unwrap();
    let listed = header.lines().filter_map(|line| line.strip_prefix("    G7110_")?.split_once(" = "));
    let listed: Vec<(&str, u32)> =
        listed.filter_map(|(name, rest)| Some((name, rest.split([',', ' ']).next()?.parse().ok()?))).collect();
    let number_of = |name: &str| listed.iter().find(|(other, _)| *other == name).map(|(_, number)| *number);
    let function =
        header.split("*g7110_refusal_name(").nth(1).and_then(|rest| rest.split("};").next()).expect("it is there");
    let names: Vec<&str> = function.split('"').skip(1).step_by(2).collect();
    for (number, name) in names.iter().enumerate() {
        assert_eq!(number_of(name), Some(number as u32), "{name}");
    }
    assert_eq!((names.len(), listed.len()), (28, 28));
    say(&format!("compared: {} names of refusals, by the header's list of numbers\n", names.len()));
}

/// A length that has a name stands by it where a call is declared: no bare 512, 41 or 80.
#[test]
fn lengths_by_name() {
    let header = std::fs::read_to_string(repository().join("include/g7110.h")).unwrap();
    let declared = header.split("#define G7110_H\n").nth(1).expect("the header has a guard");
    let mut counts = Vec::new();
    for name in ["G7110_WHY_TEXT", "G7110_SETTINGS", "G7110_SETTINGS_TEXT"] {
        let bare = format!("[{}]", defined(name));
        let line = declared.lines().find(|line| line.contains(&bare));
        assert!(line.is_none(), "{name} is its name: {line:?}");
        counts.push(declared.matches(&format!("[{name}]")).count());
    }
    assert!(counts[0] >= 1 && counts[1] >= 4 && counts[2] >= 1, "{counts:?}");
    say(&format!("compared: {counts:?} lengths of the header's declarations, each by its name\n"));
}

/// The places of each report have names, as many as the report has places; they stand above the call.
#[test]
fn places_by_name() {
    let header = std::fs::read_to_string(repository().join("include/g7110.h")).unwrap();
    let (mut named, mut without) = (0, Vec::new());
    for call in header.split("#define G7110_H\n").nth(1).expect("the header has a guard").split(");\n") {
        let Some((above, words)) = call.split_once("_t g7110_") else { continue };
        let Some(places) = words.split("uint64_t report[").nth(1).and_then(|rest| rest.split(']').next()) else {
            continue;
        };
        let names = above.rsplit_once("enum {").map(|(_, names)| names);
        match names.and_then(|names| names.split('}').next()).filter(|names| !names.contains("G7110_OK")) {
            Some(names) => {
                assert_eq!(names.split(',').count().to_string(), places, "{words}");
                named += places.parse::<usize>().unwrap();
            }
            None => without.push(words.split('(').next().unwrap()),
        }
    }
    // A going back has the place of a save, a try those of a put, a mending those of the call that tells why it stops; a
    // list of revisions has none.
    let others = ["settings_back", "store_try", "mend", "settings_kept"];
    assert!(without.iter().all(|name| others.contains(name)), "{without:?}");
    assert!(named >= 36, "{named}");
    say(&format!("compared: {named} places of reports, each by a name of its own\n"));
}

/// A pointer handed to the macros that count an array is warned of, in C and in C++, and so is refused here.
#[test]
fn a_pointer_is_no_array() {
    let folder = Path::new(env!("CARGO_TARGET_TMPDIR"));
    for (compiler, standard, ending) in [("cc", "-std=c99", "c"), ("c++", "-std=c++11", "cpp")] {
        for (given, refused) in [
            ("uint32_t t[9]; uint8_t b[9]", false),
            ("uint32_t *t; uint8_t b[9]", true),
            ("uint32_t t[9]; uint8_t *b", true),
        ] {
            let file = folder.join(format!("pointer.{ending}"));
            let held = format!("struct held {{ {given}; }};\nuint32_t first(struct held *h);\n");
            let call = "return g7110_store_delete(G7110_ARRAY(h->b), G7110_TABLE(h->t), 7);";
            std::fs::write(&file, format!("#include \"g7110.h\"\n{held}uint32_t first(struct held *h) {{ {call} }}\n"))
                .unwrap();
            let built = compiler_of(compiler, standard).args(["-fsyntax-only"]).arg(&file).output().unwrap();
            let said = String::from_utf8_lossy(&built.stderr);
            assert_eq!(built.status.success(), !refused, "{given}\n{said}");
            assert!(!refused || said.contains("sizeof-pointer-div"), "{said}");
        }
    }
    say("compared: a pointer in G7110_ARRAY and G7110_TABLE, in C and C++: 4 warned of, 2 arrays taken\n");
}

/// The loop of docs/STORE.md as it stands there, in C and in C++, with a cut at every octet that it writes.
#[test]
fn a_box_whose_power_is_cut() {
    let include = blocks_written("cut");
    for (compiler, standard, file) in [("cc", "-std=c99", "cut.c"), ("c++", "-std=c++11", "cut.cpp")] {
        let said = run(compiler, standard, file, &["-Wconversion", &include]);
        let cuts = said.strip_prefix("ok ").and_then(|said| said.strip_suffix(" cuts\n")).expect("it says how many");
        say(&format!("compared: docs/STORE.md's loop, {file}: {cuts} cuts, each start finds the greetings\n"));
        assert!(cuts.parse::<usize>().unwrap() > 50_000, "{said}");
    }
}

#[test]
fn a_program_in_c() {
    assert_eq!(run("cc", "-std=c99", "example.c", &[]), "ok\n");
}

#[test]
fn a_program_in_cpp() {
    assert_eq!(run("c++", "-std=c++11", "example.cpp", &[]), "ok\n");
}

/// The number that the header gives for a name.
fn defined(name: &str) -> u64 {
    let header = std::fs::read_to_string(repository().join("include/g7110.h")).unwrap();
    let start = format!("#define {name} ");
    let line = header.lines().find_map(|line| line.strip_prefix(&start)).expect("the header has the name");
    line.split_whitespace().next().unwrap().parse().expect("it is a number")
}

/// What objdump prints of the shipped archive. OBJDUMP may name it; a compiler of another name has its own beside it.
fn objdump(options: &[&str]) -> String {
    let beside = std::env::var("CC").ok().and_then(|cc| Some(cc.strip_suffix("-gcc")?.to_string() + "-objdump"));
    let named = std::env::var("OBJDUMP").ok().or(beside).unwrap_or("objdump".to_string());
    let mut dump = Command::new(&named);
    let said =
        dump.args(options).arg(archive()).output().unwrap_or_else(|fault| panic!("{named}, of binutils: {fault}"));
    assert!(said.status.success(), "{named}: {}", String::from_utf8_lossy(&said.stderr));
    String::from_utf8_lossy(&said.stdout).into_owned()
}

/// The calls that the header declares, each with the octets of its arguments that do not fit into six registers.
fn declared() -> BTreeMap<String, u64> {
    let header = std::fs::read_to_string(repository().join("include/g7110.h")).unwrap();
    let calls = header.split("_t g7110_").skip(1).filter_map(|rest| rest.split_once(");"));
    let calls = calls.filter_map(|(call, _)| call.split_once('('));
    calls
        .map(|(name, given)| (format!("g7110_{name}"), 8 * (given.split(',').count() as u64).saturating_sub(6)))
        .collect()
}

/// Two functions as objdump prints them: the first calls the second 40 octets down, which goes down 24 and has a table of two places.
const CODE: &str = "
0000000000000000 <first>:
   0:\tpush   %rbx
   1:\tsub    $0x20,%rsp
   5:\tcall   a <first+0xa>
\t\t\t6: R_X86_64_PLT32\t.text.second-0x4
   a:\tadd    $0x20,%rsp
   e:\tpop    %rbx
   f:\tret
0000000000000000 <second>:
   0:\tsub    $0x18,%rsp
   4:\tlea    0x0(%rip),%rdx        # b <second+0xb>
\t\t\t7: R_X86_64_PC32\t.rodata.second-0x4
   b:\tjmp    *%rcx
   d:\tadd    $0x18,%rsp
  11:\tjmp    16 <second+0x16>
\t\t\t12: R_X86_64_PLT32\tmemset-0x4
  16:\tadd    $0x18,%rsp
  1a:\tret
  1b:\tnop
";
const TABLES: &str = "RELOCATION RECORDS FOR [.rodata.second]:
OFFSET TYPE VALUE
0000000000000000 R_X86_64_PC32 .text.second+0x000000000000000d
0000000000000004 R_X86_64_PC32 .text.second+0x000000000000001a
";

/// What a bound may not pass over: each is changed alone, and must be found out.
const UNBOUNDED: [(&str, &str); 10] = [
    (".text.second-0x4", ".text.first-0x4"),
    (".text.second-0x4", ".text.third-0x4"),
    ("call   a <first+0xa>\n\t\t\t6: R_X86_64_PLT32\t.text.second-0x4", "call   *%rax"),
    ("call   a <first+0xa>\n\t\t\t6: R_X86_64_PLT32\t.text.second-0x4", "call   *0x8(%rax)"),
    ("R_X86_64_PC32\t.rodata.second-0x4", "R_X86_64_PC32\t.text.first-0x4"),
    ("R_X86_64_PC32\t.rodata.second-0x4", "R_X86_64_PC32\t.rodata.other-0x4"),
    ("sub    $0x20,%rsp", "sub    %rax,%rsp"),
    ("add    $0x20,%rsp", "add    $0x18,%rsp"),
    ("jmp    *%rcx", "nop"),
    ("memset-0x4", "malloc-0x4"),
];

#[test]
fn what_has_no_bound() {
    let bounded = |code: &str, tables: &str| bound(&frames(code, tables), "first");
    // 8 for the return address, 40, 8, then 24, or nothing and what memset takes: its return address is that of the second.
    assert_eq!(bounded(CODE, TABLES), 8 + 40 + 8 + LIBRARY);
    assert_eq!(bounded(&CODE.replace("$0x18", "$0x318"), TABLES), 8 + 40 + 8 + 0x318);
    for (old, new) in UNBOUNDED {
        assert_eq!(CODE.matches(old).count(), 1, "{old}");
        let changed = CODE.replace(old, new);
        assert!(std::panic::catch_unwind(|| bounded(&changed, TABLES)).is_err(), "{new} is not found out");
    }
    let other = TABLES.replace(".text.second+0x000000000000001a", ".text.first+0x000000000000000a");
    assert!(std::panic::catch_unwind(|| bounded(CODE, &other)).is_err(), "an address in the data is not found out");
    say(&format!("compared: the stack's bound, {} ways to have none, each found out\n", UNBOUNDED.len() + 1));
}

/// The stack of each call: a bound, from the archive's own instructions, and beside it what was measured on frames of every kind, on few
/// and many settings and greetings, on files with losses. The header's figure is enough for both, and not far too much.
#[test]
fn the_stack_that_a_call_uses() {
    let frames = frames(&objdump(&["-dr", "--no-show-raw-insn"]), &objdump(&["-r"]));
    // Names are bound at the start: what a lazy linker uses at the first call of a name is its own.
    let said = run("cc", "-std=c99", "stack.c", &["-pthread", "-Wl,-z,now"]);
    let words = said.lines().map(|line| line.split_whitespace().collect::<Vec<_>>());
    let measured: BTreeMap<&str, u64> = words.map(|words| (words[1], words[2].parse().unwrap())).collect();
    let most = defined("G7110_STACK");
    let mut bounds = BTreeMap::new();
    for (name, arguments) in declared() {
        // The caller keeps its own stack aligned to 16.
        let octets = bound(&frames, &name) + arguments.next_multiple_of(16);
        let beside = measured.get(&*name).map_or("not measured".to_string(), |octets| format!("{octets} measured"));
        say(&format!("compared: stack, the shipped archive: {name} at most {octets} octets, {beside}\n"));
        assert!(octets <= most, "{name}: {octets}, the header says {most}");
        assert!(measured.get(&*name).is_none_or(|measured| *measured <= octets), "{name}: {octets}, and {beside}");
        bounds.insert(name, octets);
    }
    // Those that are not measured are below a third of it.
    let unmeasured: Vec<(&String, &u64)> = bounds.iter().filter(|(name, _)| !measured.contains_key(&***name)).collect();
    assert!(unmeasured.iter().all(|(_, octets)| 3 * **octets < most), "not measured: {unmeasured:?}");
    assert!(measured.len() >= 36 && measured.keys().all(|name| bounds.contains_key(*name)), "{measured:?}");
    // A thread that makes no call uses some too, which is taken off; so what has a small bound may be measured as nothing.
    let none: Vec<&&str> = measured.iter().filter(|(_, octets)| **octets == 0).map(|(name, _)| name).collect();
    assert!(none.iter().all(|name| bounds[**name] <= 128), "measured as nothing: {none:?}");
    // The figure is not far too much.
    assert!(bounds.values().any(|octets| 3 * octets > 2 * most), "the header says {most}");
    say(&format!("compared: stack, the shipped archive: {} functions, {} calls bounded\n", frames.len(), bounds.len()));
}
