//! Heads, actions and causes, and the words that otn_step and otn_level_report answer.

use crate::history::Standing;
use crate::level;
use crate::provisioning::{PATH, SECTION};

/// The first head that fits.
pub fn head(s: &Standing) -> u8 {
    let fits = [s.tsf, s.otu_ais, s.dlof, s.dlom, s.acting[SECTION], s.dais(), s.doci(), s.dlck(), s.acting[PATH]];
    fits.iter().position(|fit| *fit).map_or(0, |i| i as u8 + 1)
}

/// Each bit by its name, in the order of the design; the numbers are where it stands.
pub fn bits(s: &Standing) -> [(u32, &'static str, bool); 36] {
    let flagged = s.tsf || s.otu_ais;
    let ssf = s.ssf[SECTION];
    let pssf = s.ssf[PATH];
    let from_above = pssf || s.dais() || s.doci() || s.dlck();
    [
        (12, "IF", s.in_frame),
        (13, "IM", s.entered.is_some()),
        (14, "dLOF", s.dlof),
        (15, "dLOM", s.dlom),
        (16, "section SSF", ssf),
        (17, "section dTIM", s.dtim[SECTION]),
        (18, "section dBDI", s.dbdi[SECTION]),
        (19, "dIAE", s.diae),
        (20, "dBIAE", s.dbiae),
        (21, "section dDEG", s.ddeg[SECTION]),
        (22, "path SSF", pssf),
        (23, "dAIS", s.dais()),
        (24, "dOCI", s.doci()),
        (25, "dLCK", s.dlck()),
        (26, "path dTIM", s.dtim[PATH]),
        (27, "path dBDI", s.dbdi[PATH]),
        (28, "path dDEG", s.ddeg[PATH]),
        (29, "section aTSF", ssf || s.acting[SECTION]),
        (30, "section aTSD", s.ddeg[SECTION]),
        (31, "section aBDI", ssf || s.dtim[SECTION]),
        (32, "aBIAE", s.diae),
        (37, "path aTSF", from_above || s.acting[PATH]),
        (38, "path aTSD", s.ddeg[PATH]),
        (39, "path aBDI", from_above || s.dtim[PATH]),
        (44, "cLOF", s.dlof && !flagged),
        (45, "cLOM", s.dlom && !flagged && !s.dlof),
        (46, "section cTIM", s.dtim[SECTION] && !ssf),
        (47, "section cDEG", s.ddeg[SECTION] && !ssf && !s.acting[SECTION]),
        (48, "section cBDI", s.dbdi[SECTION] && !ssf && !s.acting[SECTION]),
        (49, "section cSSF", ssf),
        (50, "cOCI", s.doci() && !pssf),
        (51, "cLCK", s.dlck() && !pssf),
        (52, "path cTIM", s.dtim[PATH] && !from_above),
        (53, "path cDEG", s.ddeg[PATH] && !from_above && !s.acting[PATH]),
        (54, "path cBDI", s.dbdi[PATH] && !from_above && !s.acting[PATH]),
        (55, "path cSSF", pssf || s.dais()),
    ]
}

pub fn word(s: &Standing, violations: &[u8; 2]) -> u64 {
    let mut word = u64::from(head(s)) << 8;
    for (place, _, stands) in bits(s) {
        word |= u64::from(stands) << place;
    }
    word | u64::from(violations[SECTION]) << 33 | u64::from(violations[PATH]) << 40
}

/// Each bit of a level by its name, with where it stands. Actions are aTSF and aTSD alone.
pub fn level_bits(s: &level::Standing) -> [(u32, &'static str, bool); 19] {
    [
        (9, "SSF", s.ssf),
        (10, "dLTC", s.dltc()),
        (11, "dAIS", s.dais()),
        (12, "dOCI", s.doci()),
        (13, "dLCK", s.dlck()),
        (14, "dTIM", s.dtim),
        (15, "dBDI", s.dbdi),
        (16, "dIAE", s.diae()),
        (17, "dBIAE", s.dbiae),
        (18, "dDEG", s.ddeg),
        (19, "aTSF", s.ssf || s.dais() || s.dltc() || s.doci() || s.dlck() || s.acting),
        (20, "aTSD", s.ddeg),
        (21, "cSSF", s.ssf || s.dais()),
        (22, "cLTC", s.dltc() && !s.ssf),
        (23, "cOCI", s.doci() && !s.ssf),
        (24, "cLCK", s.dlck() && !s.ssf),
        (25, "cTIM", s.dtim && !s.silent()),
        (26, "cDEG", s.ddeg && !s.silent() && !s.acting),
        (27, "cBDI", s.dbdi && !s.silent() && !s.acting),
    ]
}

/// The report of a level that is provisioned, which bit 8 says.
pub fn level_word(s: &level::Standing) -> u64 {
    level_bits(s).iter().fold(1 << 8, |word, (place, _, stands)| word | u64::from(*stands) << place)
}

/// The names of what differs between two words, for a message.
pub fn difference(a: u64, b: u64) -> String {
    let names = bits(&Standing::default());
    let mut out = Vec::new();
    for place in 0..64 {
        if (a ^ b) >> place & 1 == 1 {
            let name = names.iter().find(|(p, _, _)| *p == place).map(|(_, name, _)| name.to_string());
            out.push(name.unwrap_or(match place {
                0..=7 => "refusal".into(),
                8..=11 => "head".into(),
                33..=36 => "section aBEI".into(),
                40..=43 => "path aBEI".into(),
                _ => format!("bit {place}"),
            }));
        }
    }
    out.dedup();
    out.join(", ")
}
