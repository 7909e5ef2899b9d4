//! Files with every set of some faults, for the sequence of refusals.

/// A fault: its name, the number and place it gets, and what makes it, in the fields and then in the bytes.
pub type Fault<Fields> = (
    &'static str,
    (usize, usize),
    fn(&mut Fields),
    fn(&mut Vec<u8>),
);

/// A file with some faults.
pub struct Faulty {
    pub name: String,
    pub file: Vec<u8>,
    /// Number and place of each fault, in the sequence given.
    pub refusals: Vec<(usize, usize)>,
}

impl Faulty {
    /// Number and place of the first fault, 0 and 0 if there is none.
    pub fn first(&self) -> (usize, usize) {
        self.refusals.first().copied().unwrap_or((0, 0))
    }
}

/// Files with every set of faults, so every pair too.
pub fn every_set_of_faults<Fields: Clone>(
    right: &Fields,
    faults: &[Fault<Fields>],
    write: fn(&Fields) -> Vec<u8>,
) -> Vec<Faulty> {
    let mut files = Vec::new();
    for set in 0..1_usize << faults.len() {
        let in_set = (0..faults.len()).filter(|at| (set >> at) & 1 == 1);
        let chosen: Vec<&Fault<Fields>> = in_set.map(|at| &faults[at]).collect();
        let names: Vec<&str> = chosen.iter().map(|fault| fault.0).collect();
        if names.contains(&"short") && names.contains(&"long") {
            continue;
        }

        let mut fields = right.clone();
        for fault in &chosen {
            fault.2(&mut fields);
        }
        let mut file = write(&fields);
        // The last first, so that the shortest cut is made after the others.
        for fault in chosen.iter().rev() {
            fault.3(&mut file);
        }
        files.push(Faulty {
            name: format!("faults: {names:?}"),
            file,
            refusals: chosen.iter().map(|fault| fault.1).collect(),
        });
    }
    files
}
