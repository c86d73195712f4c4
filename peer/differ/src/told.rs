//! A difference in words, with all that is needed to see it again.

use peer::answers::Reply;
use peer::call::Call;

/// So much of a buffer, a text or a copy is shown.
const SHOWN: usize = 4096;

pub fn told(before: &[u8], names: &[u8], call: &Call, reply: &Reply, difference: &str) -> String {
    let peer = shown(reply);
    let bytes = hex(before);
    let length = before.len();
    let file = hex(names);
    let file_length = names.len();
    format!("{call:?}\nbuffer of {length} bytes: {bytes}\nname file of {file_length} bytes: {file}\nthe peer gives {peer}\n{difference}")
}

/// An answer that is a text, as the text; a mended copy as its bytes.
pub fn shown(reply: &Reply) -> String {
    match reply {
        Reply::Text {
            result: Ok(text),
            changed,
        } => {
            format!(
                "{} bytes, {} changed past them: {}",
                text.len(),
                changed,
                front(text)
            )
        }
        Reply::Mend {
            result: Ok(answer),
            changed,
        } => {
            format!(
                "{:?}, {} changed past the copy: {}",
                answer.mended,
                changed,
                hex(&answer.copy)
            )
        }
        _ => format!("{reply:?}"),
    }
}

pub fn hex(bytes: &[u8]) -> String {
    bytes
        .iter()
        .take(SHOWN)
        .map(|byte| format!("{byte:02x}"))
        .collect()
}

/// A text as it is, other bytes in hex.
pub fn front(bytes: &[u8]) -> String {
    let bytes = &bytes[..bytes.len().min(SHOWN)];
    let is_text = bytes.iter().all(|byte| matches!(byte, b'\n' | 0x20..=0x7E));
    if is_text {
        String::from_utf8_lossy(bytes).into_owned()
    } else {
        hex(bytes)
    }
}
