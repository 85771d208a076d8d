//! Tags: the examples of Annex F, then drawn messages on drawn tags, with both areas, the state and Purpose after
//! each: right ones of every kind, wrong ones by every check and by two at once, out of turn, cut, empty, and any
//! bytes.

mod block;
mod checks;
mod first_bytes;
mod held;
mod lending;
mod player;
mod proof;
mod scene;
mod tally;

use super::annex_f;
use super::draws::Draws;
use super::script::Script;
use crate::bench::words::shown;
use crate::hex::hex;
use player::Player;
use scene::Style;

const TAGS: usize = 5400;
const MESSAGES: usize = 26;

pub fn all(script: &mut Script) {
    annex_f::all(script);
    let mut draws = Draws::from(3);
    for i in 0..TAGS {
        let style = match i % 32 {
            0..=2 => Style::Huge,
            3..=5 => Style::Full,
            6..=21 => Style::Roomy,
            _ => Style::Small,
        };
        let draft = scene::drawn(&mut draws, style);
        script.expect(&format!("sheet {}", hex(&draft.bytes())), "ok");
        script.count("tag");
        for (area, words) in draft.words.into_iter().enumerate() {
            script.expect(&format!("area {area} {}", shown(&draws.bytes(2 * words))), "ok");
        }
        let mut player = Player::new(script, &mut draws);
        while player.sent < MESSAGES {
            player.turn();
        }
    }
    first_bytes::all(script);
    held::all(script);
}
