//! Every state before every kind: lists that bring the run to one look, then each kind in turn.
use crate::notation;
use crate::short::EVERY_KIND;
use records::{Case, Settings};

/// What stands before the token looked at: each state, and each later look of its step.
const STEMS: [&str; 52] = [
    // the stream and its documents
    "",
    "SS",
    "SS BOM DE",
    "SS VD",
    "SS TD(!e!,p)",
    "SS RD",
    "SS DS",
    "SS TD(!e!,p) DS",
    "SS SCA(v)",
    "SS SCA(v) DE",
    "SS SCA(v) BOM",
    "SS SCA(v) BOM BOM",
    "SS ANC(x) SCA(v) DS",
    "SS ANC(x) SCA(v) DE",
    // properties of a node
    "SS ANC(x)",
    "SS TAG(!,t)",
    "SS ANC(x) TAG(!,t)",
    "SS TAG(!,t) ANC(x)",
    // block sequences
    "SS BSS",
    "SS BSS ENT",
    "SS BSS ENT SCA(v)",
    "SS BSS ENT SCA(v) ENT",
    "SS BSS ENT ANC(x)",
    // block mappings
    "SS BMS",
    "SS BMS KEY",
    "SS BMS KEY ANC(x)",
    "SS BMS KEY SCA(v)",
    "SS BMS KEY SCA(v) VAL",
    "SS BMS KEY SCA(v) VAL ANC(x)",
    "SS BMS KEY SCA(v) VAL SCA(v)",
    "SS BMS KEY SCA(v) VAL SCA(v) KEY",
    // sequences without indent
    "SS BMS KEY ENT",
    "SS BMS KEY ENT SCA(v)",
    "SS BMS KEY SCA(v) VAL ENT SCA(v) ENT",
    "SS BMS KEY SCA(v) VAL ENT ANC(x)",
    // flow sequences and their pairs
    "SS FSS",
    "SS FSS ANC(x)",
    "SS FSS SCA(v)",
    "SS FSS SCA(v) FEN",
    "SS FSS KEY",
    "SS FSS KEY ANC(x)",
    "SS FSS KEY SCA(v)",
    "SS FSS KEY SCA(v) VAL",
    "SS FSS KEY SCA(v) VAL ANC(x)",
    "SS FSS KEY SCA(v) VAL SCA(v)",
    // flow mappings
    "SS FMS",
    "SS FMS SCA(v)",
    "SS FMS KEY",
    "SS FMS KEY SCA(v)",
    "SS FMS KEY SCA(v) VAL",
    "SS FMS KEY SCA(v) VAL SCA(v)",
    "SS FMS KEY SCA(v) VAL SCA(v) FEN",
];

/// How many pairs of a stem and a kind there are.
pub const ROUND: usize = STEMS.len() * EVERY_KIND.len();

/// All pairs four times, each time with another setting.
pub fn crossed() -> impl Iterator<Item = Case> {
    (0..Settings::ALL.len() * ROUND).map(|i| {
        let (round, pair) = (i / ROUND, i % ROUND);
        let stem = STEMS[pair / EVERY_KIND.len()];
        let kind = EVERY_KIND[pair % EVERY_KIND.len()];
        let list = notation::list("", &format!("{stem} {kind}"));
        let settings = Settings::ALL[(round + pair) % Settings::ALL.len()];
        Case::roomy(&list.tokens, &list.text, settings)
    })
}
