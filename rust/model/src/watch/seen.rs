//! What the watch saw.

/// How often each promise was put to the test.
#[derive(Clone, Copy, PartialEq, Eq, Debug, Default)]
pub struct Seen {
    pub ticks: u64,
    /// Promise 1: stays that ended, and those that lasted all of R + X.
    pub stays_ended: u64,
    pub stays_full: u64,
    /// Promise 2: starts of an inner device's stay, and those with the outer one engaged for just G + 2 tick ends
    /// before.
    pub pairs_entered: u64,
    pub pairs_entered_tight: u64,
    /// Promise 3: ends of an outer device's stay after an inner one's, and those just S + 2 tick ends after it.
    pub pairs_left: u64,
    pub pairs_left_tight: u64,
    /// Promise 4: returns of the base to Fall-Back, and those after all of LS.
    pub base_returns: u64,
    pub base_full: u64,
    /// Promise 5: requests made in a rested yard, blades started on time, and requests disturbed before.
    pub rested_requests: u64,
    pub blades_on_time: u64,
    pub disturbed: u64,
    /// Promise 6: tick ends with the base in Fall-Back after its first return.
    pub base_home: u64,
}

impl Seen {
    pub fn add(&mut self, more: &Seen) {
        self.ticks += more.ticks;
        self.stays_ended += more.stays_ended;
        self.stays_full += more.stays_full;
        self.pairs_entered += more.pairs_entered;
        self.pairs_entered_tight += more.pairs_entered_tight;
        self.pairs_left += more.pairs_left;
        self.pairs_left_tight += more.pairs_left_tight;
        self.base_returns += more.base_returns;
        self.base_full += more.base_full;
        self.rested_requests += more.rested_requests;
        self.blades_on_time += more.blades_on_time;
        self.disturbed += more.disturbed;
        self.base_home += more.base_home;
    }
}
