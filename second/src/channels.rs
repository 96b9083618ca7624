//! The output channels: channel c is bit c of each set.

pub const CHANNELS: usize = 32;

#[derive(Clone, Debug)]
pub struct Channels {
    fitted: u32,
    forced: u32,
    on: u32,
    latched: u32,
    counts: [u16; CHANNELS],
}

impl Channels {
    /// All off; `forced` lies within `fitted`.
    pub fn new(fitted: u32, forced: u32) -> Channels {
        Channels { fitted, forced, on: 0, latched: 0, counts: [0; CHANNELS] }
    }

    /// The channels that are there.
    pub fn fitted(&self) -> u32 {
        self.fitted
    }

    /// The channels that no command turns off.
    pub fn forced(&self) -> u32 {
        self.forced
    }

    /// The channels that are on.
    pub fn on(&self) -> u32 {
        self.on
    }

    /// The channels that an overcurrent turned off and that nothing has cleared since.
    pub fn latched(&self) -> u32 {
        self.latched
    }

    /// Overcurrents of each channel since the last reset.
    pub fn counts(&self) -> &[u16; CHANNELS] {
        &self.counts
    }

    /// The channels that commands turn on and off.
    fn commandable(&self) -> u32 {
        self.fitted & !self.forced
    }

    /// All off, no latch, no count.
    pub fn reset(&mut self) {
        self.on = 0;
        self.latched = 0;
        self.counts = [0; CHANNELS];
    }

    /// Startup or emergency is over: a clean start with the forced ones.
    pub fn light_up(&mut self) {
        self.latched = 0;
        self.on = self.forced;
    }

    /// Emergency begins. The latches stay: they tell what happened before.
    pub fn go_dark(&mut self) {
        self.on = 0;
    }

    /// Only the forced ones that are on stay on; no latch changes.
    pub fn drop_commandable(&mut self) {
        self.on &= self.forced;
    }

    /// A channel that is off cannot have drawn too much, so it is not counted.
    pub fn overcurrent(&mut self, named: u32) {
        let tripped = named & self.on;
        self.on &= !tripped;
        self.latched |= tripped;
        let mut left = tripped;
        while left != 0 {
            let count = &mut self.counts[left.trailing_zeros() as usize];
            *count = count.saturating_add(1);
            left &= left - 1;
        }
    }

    /// Fitted channels in the mask come on, latches cleared.
    pub fn group_on(&mut self, mask: u32) {
        let named = mask & self.fitted;
        self.on |= named;
        self.latched &= !named;
    }

    /// Command-enabled channels in the mask go off, latches cleared.
    pub fn group_off(&mut self, mask: u32) {
        let named = mask & self.commandable();
        self.on &= !named;
        self.latched &= !named;
    }

    /// `reach` holds the channels the command speaks of at all. Within it,
    /// commandable channels follow the mask and forced ones only come on.
    pub fn group_state(&mut self, mask: u32, reach: u32) {
        self.group_off(!mask & reach);
        self.group_on(mask & reach);
    }

    /// Whether there is such a channel.
    pub fn is_fitted(&self, index: u8) -> bool {
        bit(index) & self.fitted != 0
    }

    /// Whether there is such a channel and commands turn it off.
    pub fn is_commandable(&self, index: u8) -> bool {
        bit(index) & self.commandable() != 0
    }

    /// The same as a group of this one.
    pub fn channel_on(&mut self, index: u8) {
        self.group_on(bit(index));
    }

    /// The same as a group of this one.
    pub fn channel_off(&mut self, index: u8) {
        self.group_off(bit(index));
    }
}

/// No bit for an index past the last channel.
fn bit(index: u8) -> u32 {
    1u32.checked_shl(u32::from(index)).unwrap_or(0)
}

#[cfg(test)]
mod tests {
    use super::*;

    #[test]
    fn an_overcurrent_count_stops_at_65535() {
        let mut channels = Channels::new(0x8000_0001, 0x8000_0001);
        channels.counts = [65_534; CHANNELS];
        for _ in 0..2 {
            channels.light_up();
            channels.overcurrent(0x8000_0001);
            assert_eq!(channels.counts[0], 65_535);
            assert_eq!(channels.counts[31], 65_535);
            assert_eq!(channels.counts[1], 65_534);
        }
    }
}
