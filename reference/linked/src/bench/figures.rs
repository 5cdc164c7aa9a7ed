//! From the times of batches to the figures of a line.

/// The times of the archive (side 0) and its rivals, in nanoseconds of a call.
pub struct Figures {
    what: String,
    samples: Option<u64>,
    rivals: Vec<(&'static str, Option<f64>)>,
    times: Vec<Vec<f64>>,
}

/// The archive against one rival.
pub struct Line {
    pub what: String,
    /// The samples that a call works through, if that is a fixed number.
    pub samples: Option<u64>,
    pub against: &'static str,
    /// Nanoseconds of a call in the best batch, of both.
    pub archive: f64,
    pub rival: f64,
    /// The quartiles of the ratios of batches in the same round.
    pub quartiles: [f64; 3],
    pub aim: Option<f64>,
}

impl Figures {
    pub fn new(what: String, samples: Option<u64>) -> Figures {
        Figures {
            what,
            samples,
            rivals: Vec::new(),
            times: vec![Vec::new()],
        }
    }

    pub fn add_rival(&mut self, name: &'static str, aim: Option<f64>) {
        self.rivals.push((name, aim));
        self.times.push(Vec::new());
    }

    pub fn add_time(&mut self, side: usize, nanoseconds: f64) {
        self.times[side].push(nanoseconds);
    }

    /// A line for each rival.
    pub fn lines(&self) -> Vec<Line> {
        let archive = &self.times[0];
        let pairs = self.rivals.iter().zip(&self.times[1..]);
        pairs
            .map(|((against, aim), rival)| Line {
                what: self.what.clone(),
                samples: self.samples,
                against,
                archive: best(archive),
                rival: best(rival),
                quartiles: quartiles(archive, rival),
                aim: *aim,
            })
            .collect()
    }
}

fn best(times: &[f64]) -> f64 {
    times.iter().copied().fold(f64::INFINITY, f64::min)
}

fn quartiles(archive: &[f64], rival: &[f64]) -> [f64; 3] {
    let mut ratios: Vec<f64> = archive.iter().zip(rival).map(|(x, y)| x / y).collect();
    ratios.sort_by(f64::total_cmp);
    let last = ratios.len() - 1;
    [last / 4, last / 2, last - last / 4].map(|place| ratios[place])
}
