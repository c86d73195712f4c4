//! The structs have the sizes and offsets that a C compiler gives those of the header.

use lepsaino::raw::*;
use std::mem::{size_of, size_of_val, zeroed};
use std::path::Path;
use std::process::Command;

/// Lines as layout.c prints them; a field left out does not compile.
macro_rules! layout {
    ($name:literal, $kind:ident, $($field:ident)*) => {{
        // SAFETY: every field is a number or bytes, so that zeros are a value.
        let value: $kind = unsafe { zeroed() };
        let $kind { $($field: _),* } = value;
        let mut text = format!("{} {}\n", $name, size_of::<$kind>());
        $(
            let offset = &value.$field as *const _ as usize - &value as *const _ as usize;
            let size = size_of_val(&value.$field);
            text += &format!("{}.{} {} {}\n", $name, stringify!($field), offset, size);
        )*
        text
    }};
}

fn from_rust() -> String {
    [
        layout!("answer", Answer, refusal place value),
        layout!("checked", Checked, refusal place big id mask base registry_start name_size
            registry_end buffer_start buffer_end current events),
        layout!("name", Name, refusal place kind at length),
        layout!("mended", Mended, refusal place length missing current types ids packed moved),
        layout!("slot", Slot, pointer field id stamp first second third fourth),
        layout!("event", Event, refusal place slot ticks context name_kind name_at name_length
            event_kind event_at event_length),
        layout!("reading", Reading, rate unit serial),
        layout!("format", Format, big base mask name_size entries),
        layout!("object", Object, object_type pointer parameter_one parameter_two
            reserved_one reserved_two),
        layout!("pieces", Pieces, header entries entry_size start slots slot_size current front
            came entries_passed bad_type slots_passed unused behind no_id total),
        format!("contexts {} {} {}\n", INIT, ISR, THREAD),
        format!("kinds of name {} {} {} {}\n", NAMELESS, LIVE, GONE, FILED),
    ]
    .concat()
}

fn from_c() -> String {
    let folder = Path::new(env!("CARGO_MANIFEST_DIR"));
    let program = Path::new(env!("CARGO_TARGET_TMPDIR")).join("layout");
    let compiler = std::env::var("CC").unwrap_or_else(|_| "cc".to_string());
    let compiled = Command::new(compiler)
        .arg("-I")
        .arg(folder.join("../../include"))
        .arg(folder.join("tests/layout.c"))
        .arg("-o")
        .arg(&program)
        .status()
        .expect("a C compiler runs");
    assert!(compiled.success());
    let printed = Command::new(program).output().expect("layout.c runs");
    String::from_utf8(printed.stdout).expect("layout.c prints text")
}

#[test]
fn structs_lie_as_in_c() {
    assert_eq!(from_rust(), from_c());
}

#[test]
fn a_state_has_the_size_that_the_header_says() {
    assert_eq!(size_of::<Pieces>(), 176);
}
