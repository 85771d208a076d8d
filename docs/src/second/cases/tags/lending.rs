//! One call of the tag, with what the bench lends; and whether what came of it is what the checks say.

use super::checks::{failing, number, Call, Check};
use super::player::Player;
use super::tally::Seen;
use crate::bench::words::shown;
use crate::hex::hex;
use crate::standard::frames;
use crate::standard::tag::{DRAWS, ROOM};

impl Player<'_> {
    /// One call: the message with what the bench lends, then both areas. After a fault of the bench the message is
    /// sent once more.
    pub fn call(&mut self, message: Vec<u8>, wrong: &[Check], hit: &[String]) -> u8 {
        let areas = self.tag().setup.words.map(|words| 2 * words);
        let room = [ROOM, ROOM, ROOM, ROOM, ROOM + 1, 4096][self.draws.below(6)];
        let mut call = Call {
            message,
            draws: self.draws.bytes(DRAWS),
            room,
            areas,
        };
        let right = call.clone();
        if wrong.contains(&Check::Draws) {
            call.draws.resize(self.draws.one_of(&[9, 11, 0, 20]), 0x77);
        }
        if wrong.contains(&Check::Room) {
            call.room = [ROOM - 1, ROOM - 1, 0, self.draws.below(ROOM)][self.draws.below(4)];
        }
        if wrong.contains(&Check::Area) {
            let area = self.draws.below(2);
            let less = call.areas[area].saturating_sub(1 + self.draws.below(2));
            let more = call.areas[area] + 1 + self.draws.below(2);
            call.areas[area] = if less < areas[area] && self.draws.once_in(2) {
                less
            } else {
                more
            };
        }
        let number = self.lent(&call, hit);
        match number {
            7 if self.draws.once_in(2) => self.lent(&right, hit),
            _ => number,
        }
    }

    fn lent(&mut self, call: &Call, hit: &[String]) -> u8 {
        let right = [
            self.script.console.memory.identity.clone(),
            self.script.console.memory.user.clone(),
        ];
        for area in (0..2).filter(|&area| call.areas[area] != right[area].len()) {
            let mut other = right[area].clone();
            other.resize(call.areas[area], 0xee);
            self.script.expect(&format!("area {area} {}", shown(&other)), "ok");
        }
        let tag = self.tag();
        let all = failing(tag, call);
        let kind = call.message.first().and_then(|&first| frames::kind_of(first));
        let meant = all.first().map_or(0, |&check| number(check, kind));
        let seen = Seen::of(tag, kind, call, &all, meant);
        let room = if call.room == ROOM {
            String::new()
        } else {
            format!(" {}", call.room)
        };
        let answer = self.script.say(&format!(
            "message {} {}{room}",
            shown(&call.message),
            shown(&call.draws)
        ));
        self.sent += 1;
        let told = match answer.strip_prefix("refused ") {
            Some(rest) => rest
                .split(' ')
                .next()
                .and_then(|number| number.parse().ok())
                .unwrap_or(255),
            None => 0,
        };
        self.script.holds(
            &format!("{} is {answer}, not {meant} by {all:?}", hex(&call.message)),
            told == meant,
        );
        seen.count(self.script, hit, &answer);
        for area in (0..2).filter(|&area| call.areas[area] != right[area].len()) {
            self.script
                .expect(&format!("area {area} {}", shown(&right[area])), "ok");
        }
        self.script.say("areas");
        meant
    }
}
