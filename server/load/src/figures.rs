//! Rates and quantiles, as a line of JSON.

pub struct Figures {
    members: Vec<String>,
}

impl Figures {
    pub fn new() -> Figures {
        Figures { members: Vec::new() }
    }

    pub fn with(mut self, name: &str, value: f64) -> Figures {
        self.members.push(format!("\"{name}\":{value:.4}"));
        self
    }

    /// The median, the 99th percentile and the greatest of some seconds, in milliseconds.
    pub fn latencies(self, mut seconds: Vec<f64>) -> Figures {
        seconds.sort_by(f64::total_cmp);
        let at = |share: f64| {
            let last = seconds.len().saturating_sub(1);
            seconds.get(((seconds.len() as f64 * share) as usize).min(last)).map_or(f64::NAN, |found| found * 1e3)
        };
        let (median, high, most) = (at(0.5), at(0.99), at(1.0));
        if seconds.is_empty() {
            return self;
        }
        self.with("p50", median).with("p99", high).with("most", most)
    }

    pub fn told(self) -> String {
        format!("{{{}}}", self.members.join(","))
    }
}
