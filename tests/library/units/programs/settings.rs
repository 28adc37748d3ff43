//! The words of a command line, and files of entities, each read by a call.

use super::scripted::Scripted;
use bitflags::Flags;
use cmark_values::{EntityLookup, Options};
use program_io::{RunFault, Watched, status};
use mdhtml_run::run;
use program_settings::{LineFault, Program, Settings, parse_line, read_entities};
use std::alloc::Global;
use std::test::Fail;

/// The settings that the words of the command `mdhtml` ask for.
fn read(alloc: Global, words: &[&str]) -> Result<Settings, LineFault> {
    parse_line(alloc, Program::Mdhtml, words)
}

#[test]
fn flags_are_bits(rt: HostRuntime) -> Result<(), Fail> {
    let settings = read(rt.alloc(), &["mdhtml", "--gfm", "--tables"]);
    assert!(rt; matches!(&settings, Ok(found) if found.options.bits() == 2050 && found.entities.is_none()));
    let settings = read(rt.alloc(), &["mdhtml", "--entities", "names.json"]);
    assert!(rt; matches!(&settings, Ok(found) if found.options.bits() == 0 && found.entities.as_ref().is_some_and(|file| file.as_str() == "names.json")));
    Ok(())
}

#[test]
fn words_that_are_not_the_command_s_are_bad(rt: HostRuntime) -> Result<(), Fail> {
    for word in ["--unknown", "unknown", "--entities"] {
        let settings = read(rt.alloc(), &["mdhtml", word]);
        assert!(rt; matches!(settings, Err(LineFault::Bad)), "of {word}");
    }
    let settings = read(rt.alloc(), &["mdhtml", "--tables", "--tables"]);
    assert!(rt; matches!(settings, Err(LineFault::Bad)));
    Ok(())
}

#[test]
fn one_program_takes_the_flag_for_safe_html(rt: HostRuntime) -> Result<(), Fail> {
    let settings = read(rt.alloc(), &["mdhtml", "--safe", "--gfm"]);
    assert!(rt; matches!(&settings, Ok(found) if found.safe && found.options.bits() == 2048));
    let settings = read(rt.alloc(), &["mdhtml", "--gfm"]);
    assert!(rt; matches!(&settings, Ok(found) if !found.safe));
    let settings = parse_line(rt.alloc(), Program::Mdevents, &["mdevents", "--safe"]);
    assert!(rt; matches!(settings, Err(LineFault::Bad)));
    Ok(())
}

#[test]
fn help_is_a_text(rt: HostRuntime) -> Result<(), Fail> {
    let settings = read(rt.alloc(), &["mdhtml", "--help"]);
    assert!(rt; matches!(&settings, Err(LineFault::Help(text)) if text.as_str().ends_with("\n")));
    Ok(())
}

#[test]
fn a_name_of_the_file_is_looked_up(rt: HostRuntime) -> Result<(), Fail> {
    let read = read_entities(rt.alloc(), b"{\"x\":\"<\"}");
    assert!(rt; read.is_ok());
    if let Ok(names) = read {
        assert_eq!(rt; names.get_entity("x"), Some("<"));
        assert_eq!(rt; names.get_entity("amp"), Some("&"));
        assert_eq!(rt; names.get_entity("y"), None);
    }
    Ok(())
}

#[test]
fn what_is_no_object_of_texts_is_refused(rt: HostRuntime) -> Result<(), Fail> {
    let files: [&[u8]; 4] = [b"{\"a\":1}", b"[]", b"\xff", b""];
    for file in files {
        let read = read_entities(rt.alloc(), file);
        assert!(rt; matches!(read, Err(RunFault::Entities)), "of {file:?}");
    }
    assert_eq!(rt; status(&RunFault::Entities), 3);
    Ok(())
}

#[test]
fn a_run_reads_entities_by_the_file(rt: HostRuntime) -> Result<(), Fail> {
    let read = read_entities(rt.alloc(), b"{\"x\":\"<\"}");
    assert!(rt; read.is_ok());
    if let Ok(names) = read {
        let mut reader = Watched::new(Scripted::new(rt.alloc(), b"&x;&amp;", &[]));
        let mut writer = Watched::new(Scripted::new(rt.alloc(), b"", &[]));
        let result = run(rt.alloc(), &mut reader, &mut writer, Options::empty(), &names);
        assert_eq!(rt; result, Ok(()));
        assert_eq!(rt; writer.end().held.as_slice(), b"<p>&lt;&amp;</p>\n".as_slice());
    }
    Ok(())
}
