//! Provisioning of section and path and of a tandem level, and refusals 5 to 10.

pub const SECTION: usize = 0;
pub const PATH: usize = 1;

/// The greatest DEGThr; none where k is not 1 to 3.
pub fn ceiling(k: u8) -> Option<u32> {
    match k {
        1 => Some(20_420),
        2 => Some(82_025),
        3 => Some(329_492),
        _ => None,
    }
}

/// The lowest of refusals 6 to 10 that the fields of one layer or level meet.
fn refusal(ceiling: u32, degthr: u32, degm: u8, mode: u8, dis: u8, names: &[u8]) -> Option<u8> {
    let met = [!(1..=ceiling).contains(&degthr), !(2..=10).contains(&degm), mode > 3, dis > 2, names.len() != 32];
    met.iter().position(|met| *met).map(|i| i as u8 + 6)
}

/// Whether a trace mismatch acts under this TIMActDis byte (2 is the default, which is disabled: "Byte 2 (default) in TIMActDis shall mean disabled").
fn acts(dis: u8) -> bool {
    dis == 0
}

/// Whether an accepted trace differs from the names in the field that the mode compares.
fn differs(mode: u8, names: &[u8; 32], accepted: &[u8; 64]) -> bool {
    let sapi = accepted[0..16] != names[0..16];
    let dapi = accepted[16..32] != names[16..32];
    match mode {
        0 => false,
        1 => sapi,
        2 => dapi,
        _ => sapi || dapi,
    }
}

#[derive(Clone, Debug, PartialEq, Eq)]
pub struct Provisioning {
    pub k: u8,
    pub degthr: [u32; 2],
    pub degm: [u8; 2],
    pub mode: [u8; 2],
    pub dis: [u8; 2],
    pub names: [[u8; 32]; 2],
}

impl Provisioning {
    /// The provisioning of the given fields, or the lowest refusal number that any of them meets.
    pub fn of(
        k: u8,
        degthr: [u32; 2],
        degm: [u8; 2],
        mode: [u8; 2],
        dis: [u8; 2],
        names: [&[u8]; 2],
    ) -> Result<Provisioning, u8> {
        let ceiling = ceiling(k).ok_or(5)?;
        let met = |layer: usize| refusal(ceiling, degthr[layer], degm[layer], mode[layer], dis[layer], names[layer]);
        if let Some(lowest) = [SECTION, PATH].into_iter().filter_map(met).min() {
            return Err(lowest);
        }
        let mut kept = [[0u8; 32]; 2];
        for layer in [SECTION, PATH] {
            kept[layer].copy_from_slice(names[layer]);
        }
        Ok(Provisioning { k, degthr, degm, mode, dis, names: kept })
    }

    /// N: three milliseconds in frames, rounded up.
    pub fn n(&self) -> u64 {
        match self.k {
            1 => 62,
            2 => 247,
            _ => 989,
        }
    }

    /// Whether a trace mismatch of the layer acts.
    pub fn acts(&self, layer: usize) -> bool {
        acts(self.dis[layer])
    }

    /// Whether an accepted trace differs from what is expected of the layer.
    pub fn differs(&self, layer: usize, accepted: &[u8; 64]) -> bool {
        differs(self.mode[layer], &self.names[layer], accepted)
    }

    /// Body of a kind 3 record.
    pub fn body(&self) -> Vec<u8> {
        let mut b = vec![self.k];
        for layer in [SECTION, PATH] {
            b.extend(self.degthr[layer].to_le_bytes());
            b.push(self.degm[layer]);
        }
        b.extend(self.mode);
        b.extend(self.dis);
        b.extend(self.names[SECTION]);
        b.extend(self.names[PATH]);
        b
    }
}

/// "its own provisioning record in kind 4 .. : level, DEGThr (4), DEGM, mode, TIMActDis, names (32), with the ranges and refusals of
/// 6 to 10" (K1).
#[derive(Clone, Debug, PartialEq, Eq)]
pub struct LevelProvisioning {
    pub degthr: u32,
    pub degm: u8,
    pub mode: u8,
    pub dis: u8,
    pub names: [u8; 32],
}

impl LevelProvisioning {
    /// The provisioning of the given fields under a supervisor's k, or the lowest refusal number that any of them meets.
    pub fn of(k: u8, degthr: u32, degm: u8, mode: u8, dis: u8, names: &[u8]) -> Result<LevelProvisioning, u8> {
        match refusal(ceiling(k).ok_or(5)?, degthr, degm, mode, dis, names) {
            Some(number) => Err(number),
            None => Ok(LevelProvisioning { degthr, degm, mode, dis, names: names.try_into().expect("32 bytes") }),
        }
    }

    /// Whether a trace mismatch of the level acts.
    pub fn acts(&self) -> bool {
        acts(self.dis)
    }

    /// Whether an accepted trace differs from what is expected of the level.
    pub fn differs(&self, accepted: &[u8; 64]) -> bool {
        differs(self.mode, &self.names, accepted)
    }

    /// Body of a kind 4 record.
    pub fn body(&self, level: u8) -> Vec<u8> {
        let mut b = vec![level];
        b.extend(self.degthr.to_le_bytes());
        b.extend([self.degm, self.mode, self.dis]);
        b.extend(self.names);
        b
    }
}
