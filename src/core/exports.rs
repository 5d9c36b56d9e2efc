//! Exports of core modules.

pub use crate::proved::wasm_encoder::ExportKind;

crate::encode::encode! {
    ExportKind, kind => *kind;
}
