//! The rules in a game's text, the game's id, and the session of a match (docs/FORMATS.md).

use crate::sha256::sha256;

#[derive(Default)]
pub struct Rules {
    pub players: u8,
    pub ipf: u8,
    pub frames: usize,
    pub delay: usize,
    pub window: usize,
    pub seed: u64,
    pub wire: u8,
    pub masks: [u16; 4],
    pub program: Vec<u8>,
}

impl Rules {
    /// Reads a text without faults.
    pub fn read(text: &str) -> Rules {
        let mut rules = Rules { wire: 1, ..Rules::default() };
        for line in text.lines() {
            let Some((name, value)) = line.split_once(' ') else { continue };
            match name {
                "players" => rules.players = value.parse().unwrap(),
                "ipf" => rules.ipf = value.parse().unwrap(),
                "frames" => rules.frames = value.parse().unwrap(),
                "delay" => rules.delay = value.parse().unwrap(),
                "window" => rules.window = value.parse().unwrap(),
                "seed" => rules.seed = value.parse().unwrap(),
                "wire" => rules.wire = value.parse().unwrap(),
                "mask1" | "mask2" | "mask3" | "mask4" => {
                    let place = usize::from(name.as_bytes()[4] - b'1');
                    rules.masks[place] = u16::from_str_radix(value, 16).unwrap();
                }
                "code" => {
                    let bytes = (0..value.len()).step_by(2).map(|k| u8::from_str_radix(&value[k..k + 2], 16).unwrap());
                    rules.program.extend(bytes);
                }
                _ => {}
            }
        }
        rules
    }

    /// The greatest length of a player's list of inputs.
    pub fn limit(&self) -> usize {
        self.frames + self.delay
    }

    /// Returns the game's id.
    pub fn id(&self) -> [u8; 32] {
        let mut bytes = vec![self.players, self.ipf];
        bytes.extend((self.frames as u32).to_be_bytes());
        bytes.extend([self.delay as u8, self.window as u8]);
        bytes.extend(self.seed.to_be_bytes());
        bytes.extend(self.masks.iter().flat_map(|mask| mask.to_be_bytes()));
        bytes.extend((self.program.len() as u16).to_be_bytes());
        bytes.extend(&self.program);
        if self.wire == 2 {
            bytes.push(2);
        }
        sha256(&bytes)
    }

    /// Returns the session of a match in this room.
    pub fn session(&self, room: u64) -> u64 {
        let digest = sha256(&[&self.id()[..], &room.to_be_bytes()].concat());
        u64::from_be_bytes(*digest.first_chunk().unwrap())
    }
}
