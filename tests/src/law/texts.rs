//! The user text and the label, as parts of what was lent.

use super::descriptor::TRACE_LABEL;
use super::rules::{open, Opened};

/// Bytes of TRACE_LABEL.
const LABEL_SIZE: usize = 16;

/// The user text, as that part of the block; the empty part of a refused block.
pub fn user_text(block: &[u8]) -> &[u8] {
    match open(block) {
        Ok(opened) => opened.user_text,
        Err(_) => &block[..0],
    }
}

/// The block's own label; where that is empty the fallback, and for a refused block the empty part
/// of the fallback.
pub fn label<'a>(block: &'a [u8], fallback: &'a [u8]) -> &'a [u8] {
    let Ok(opened) = open(block) else {
        return &fallback[..0];
    };
    let own = own_label(&opened);
    if own.is_empty() {
        return fallback;
    }
    own
}

/// TRACE_LABEL up to its first zero byte, or all of it.
pub fn own_label<'a>(opened: &Opened<'a>) -> &'a [u8] {
    let field = &opened.descriptor[TRACE_LABEL..TRACE_LABEL + LABEL_SIZE];
    let length = field.iter().position(|byte| *byte == 0).unwrap_or(LABEL_SIZE);
    &field[..length]
}
