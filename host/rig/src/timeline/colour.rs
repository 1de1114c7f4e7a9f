//! A colour for each round, dark enough for letters on white.

use kalebasin::Round;

/// Colours that eyes of all sorts tell apart, for the first rounds.
const FIRST: [&str; 6] = ["#0b5fa5", "#b34700", "#14743a", "#8a2ba5", "#a3163f", "#5f5200"];

/// The rounds that have a colour, each once and in order.
pub struct Colours(Vec<Round>);

impl Colours {
    /// Colours for these rounds.
    pub fn new(rounds: impl Iterator<Item = Round>) -> Colours {
        let mut rounds: Vec<Round> = rounds.collect();
        rounds.sort_unstable();
        rounds.dedup();
        Colours(rounds)
    }

    /// The rounds in order.
    pub fn rounds(&self) -> &[Round] {
        &self.0
    }

    /// The colour of a round; no two rounds have the same. Behind the first ones, the golden angle keeps neighbours apart.
    pub fn of(&self, round: Round) -> String {
        let place = self.0.binary_search(&round).unwrap_or(self.0.len());
        match FIRST.get(place) {
            Some(colour) => colour.to_string(),
            None => {
                let tenths = place * 1375 % 3600;
                format!("hsl({}.{},{}%,{}%)", tenths / 10, tenths % 10, 60 + place / 144 % 40, 24 + place * 7 % 13)
            }
        }
    }
}
