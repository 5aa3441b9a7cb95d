//! The groups of cases. Each is cut into chunks, which threads may take in
//! any order.

mod seeded;
mod sheets;
mod slices;
mod texts;
mod truth;

use crate::run::Run;

pub struct Group {
    pub name: &'static str,
    pub chunks: u64,
    /// Does another seed give other cases?
    pub seeded: bool,
    pub run: fn(&mut Run),
}

const fn fixed(name: &'static str, chunks: u64, run: fn(&mut Run)) -> Group {
    Group {
        name,
        chunks,
        seeded: false,
        run,
    }
}

const fn seeded(name: &'static str, chunks: u64, run: fn(&mut Run)) -> Group {
    Group {
        name,
        chunks,
        seeded: true,
        run,
    }
}

/// All groups; the long ones stand first, so that no thread ends late.
pub fn groups() -> Vec<Group> {
    vec![
        fixed("functions", truth::function_count(), truth::functions),
        seeded("large functions", 8, truth::large_functions),
        seeded("readings", 80, truth::readings),
        seeded("lamp", 48, truth::lamp),
        fixed("bytes", 16, texts::bytes),
        fixed("truncations", 2, texts::truncations),
        fixed("figures", 4, texts::figures),
        fixed("lines", 2, texts::lines),
        fixed("sheets", 1, sheets::sheets),
        fixed("sizes", 8, sheets::sizes),
        seeded("jobs", 60, seeded::jobs),
        seeded("crossbars", 48, seeded::crossbars),
        seeded("grounds", 60, seeded::grounds),
        seeded("two grounds", 60, seeded::two_grounds),
        seeded("too wide", 24, seeded::too_wide),
        seeded("listings", 32, seeded::listings),
        seeded("anything", 60, seeded::anything),
        seeded("records", 24, slices::records),
        seeded("small buffers", 32, slices::small_buffers),
        seeded("large buffers", 8, slices::large_buffers),
        seeded("settings", 24, slices::settings),
        seeded("order", 24, slices::order),
    ]
}
