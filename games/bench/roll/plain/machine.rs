//! The machine of docs/MACHINE.md, and the rules of a game for two.

use crate::sha256::sha256;

/// The patterns of the digits.
const PATTERNS: &str = "f0909090f02060202070f010f080f0f010f010f09090f01010f080f010f0f080f090f0f010204040\
    f090f090f0f090f010f0f090f09090e090e090e0f0808080f0e0909090e0f080f080f0f080f08080";

fn hex(digits: &str) -> Vec<u8> {
    (0..digits.len()).step_by(2).map(|k| u8::from_str_radix(&digits[k..k + 2], 16).unwrap()).collect()
}

/// The rules of a game, as far as they are read here.
#[derive(Default)]
pub struct Game {
    ipf: u8,
    pub window: usize,
    seed: u64,
    masks: [u16; 2],
    program: Vec<u8>,
}

impl Game {
    pub fn read(text: &str) -> Game {
        let mut game = Game::default();
        for line in text.lines() {
            let Some((name, value)) = line.split_once(' ') else { continue };
            match name {
                "ipf" => game.ipf = value.parse().unwrap(),
                "window" => game.window = value.parse().unwrap(),
                "seed" => game.seed = value.parse().unwrap(),
                "mask1" => game.masks[0] = u16::from_str_radix(value, 16).unwrap(),
                "mask2" => game.masks[1] = u16::from_str_radix(value, 16).unwrap(),
                "code" => game.program.extend(hex(value)),
                _ => {}
            }
        }
        game
    }

    pub fn joined(&self, row: &Row) -> u16 {
        row[0] & self.masks[0] | row[1] & self.masks[1]
    }
}

/// What each of two players holds down in a frame.
pub type Row = [u16; 2];

#[derive(Clone, Copy, PartialEq)]
pub struct Machine {
    memory: [u8; 4096],
    v: [u8; 16],
    i: u16,
    pc: u16,
    stack: [u16; 16],
    depth: u8,
    screen: [u64; 32],
    timer: u8,
    tone: u8,
    keys: u16,
    waits: Option<u8>,
    draws: u64,
    stop: u8,
}

impl Machine {
    pub fn start(game: &Game) -> Machine {
        let mut memory = [0; 4096];
        memory[0x50..0x50 + 80].copy_from_slice(&hex(PATTERNS));
        memory[0x200..0x200 + game.program.len()].copy_from_slice(&game.program);
        Machine {
            memory,
            v: [0; 16],
            i: 0,
            pc: 0x200,
            stack: [0; 16],
            depth: 0,
            screen: [0; 32],
            timer: 0,
            tone: 0,
            keys: 0,
            waits: None,
            draws: 0,
            stop: 0,
        }
    }

    pub fn frame(&mut self, game: &Game, keys: u16) {
        if self.stop != 0 {
            return;
        }
        let released = self.keys & !keys;
        if let (Some(x), true) = (self.waits, released != 0) {
            self.v[(x & 15) as usize] = released.trailing_zeros() as u8;
            self.waits = None;
        }
        if self.waits.is_none() {
            for _ in 0..game.ipf {
                if !self.step(game, keys) {
                    break;
                }
            }
        }
        self.timer = self.timer.saturating_sub(1);
        self.tone = self.tone.saturating_sub(1);
        self.keys = keys;
    }

    /// One instruction. Whether another one of the frame may follow.
    fn step(&mut self, game: &Game, keys: u16) -> bool {
        let high = self.memory[(self.pc & 4095) as usize];
        let low = self.memory[(self.pc + 1 & 4095) as usize];
        let code = u16::from_be_bytes([high, low]);
        let (x, y, n) = ((code >> 8 & 15) as usize, (code >> 4 & 15) as usize, code & 15);
        let (kk, to) = (code as u8, code & 4095);
        let (vx, vy) = (self.v[x], self.v[y]);
        let mut next = self.pc + 2;
        match (code >> 12, n, kk) {
            (0, _, _) if code == 0x00e0 => self.screen = [0; 32],
            (0, _, _) if code == 0x00ee => {
                if self.depth == 0 {
                    return self.stop_with(3);
                }
                self.depth -= 1;
                let place = (self.depth & 15) as usize;
                next = self.stack[place];
                self.stack[place] = 0;
            }
            (1, _, _) => next = to,
            (2, _, _) => {
                if self.depth == 16 {
                    return self.stop_with(2);
                }
                self.stack[(self.depth & 15) as usize] = next & 4095;
                self.depth += 1;
                next = to;
            }
            (3, _, _) => next += 2 * u16::from(vx == kk),
            (4, _, _) => next += 2 * u16::from(vx != kk),
            (5, 0, _) => next += 2 * u16::from(vx == vy),
            (9, 0, _) => next += 2 * u16::from(vx != vy),
            (6, _, _) => self.v[x] = kk,
            (7, _, _) => self.v[x] = vx.wrapping_add(kk),
            (8, 0, _) => self.v[x] = vy,
            (8, 1, _) => self.put(x, vx | vy, 0),
            (8, 2, _) => self.put(x, vx & vy, 0),
            (8, 3, _) => self.put(x, vx ^ vy, 0),
            (8, 4, _) => self.put(x, vx.wrapping_add(vy), u8::from(vx.checked_add(vy).is_none())),
            (8, 5, _) => self.put(x, vx.wrapping_sub(vy), u8::from(vx >= vy)),
            (8, 6, _) => self.put(x, vy >> 1, vy & 1),
            (8, 7, _) => self.put(x, vy.wrapping_sub(vx), u8::from(vy >= vx)),
            (8, 14, _) => self.put(x, vy << 1, vy >> 7),
            (10, _, _) => self.i = to,
            (11, _, _) => next = to + u16::from(self.v[0]),
            (12, _, _) => {
                self.v[x] = random_byte(game.seed, self.draws) & kk;
                self.draws = self.draws.wrapping_add(1);
            }
            (13, _, _) => {
                self.v[15] = u8::from(self.draw(vx, vy, n));
                self.pc = next & 4095;
                return false;
            }
            (14, _, 0x9e) => next += 2 * (keys >> (vx & 15) & 1),
            (14, _, 0xa1) => next += 2 * (!keys >> (vx & 15) & 1),
            (15, _, 0x07) => self.v[x] = self.timer,
            (15, _, 0x0a) => {
                self.waits = Some(x as u8);
                self.pc = next & 4095;
                return false;
            }
            (15, _, 0x15) => self.timer = vx,
            (15, _, 0x18) => self.tone = vx,
            (15, _, 0x1e) => self.i = self.i + u16::from(vx) & 4095,
            (15, _, 0x29) => self.i = 0x50 + 5 * u16::from(vx & 15),
            (15, _, 0x33) => self.store(&[vx / 100, vx / 10 % 10, vx % 10]),
            (15, _, 0x55) => {
                let v = self.v;
                self.store(&v[..x + 1]);
                self.i = self.i + x as u16 + 1 & 4095;
            }
            (15, _, 0x65) => {
                for k in 0..x + 1 {
                    self.v[k] = self.memory[self.i as usize + k & 4095];
                }
                self.i = self.i + x as u16 + 1 & 4095;
            }
            _ => return self.stop_with(1),
        }
        self.pc = next & 4095;
        true
    }

    fn put(&mut self, x: usize, value: u8, flag: u8) {
        self.v[x] = value;
        self.v[15] = flag;
    }

    fn store(&mut self, bytes: &[u8]) {
        for (k, byte) in bytes.iter().enumerate() {
            self.memory[self.i as usize + k & 4095] = *byte;
        }
    }

    fn stop_with(&mut self, stop: u8) -> bool {
        self.stop = stop;
        false
    }

    fn draw(&mut self, x: u8, y: u8, n: u16) -> bool {
        let (left, top) = (x & 63, (y & 31) as usize);
        let mut met = 0;
        for k in 0..(n as usize).min(32 - top) {
            let strip = u64::from(self.memory[self.i as usize + k & 4095]) << 56 >> left;
            met |= self.screen[top + k] & strip;
            self.screen[top + k] ^= strip;
        }
        met != 0
    }

    /// The first 8 bytes of the digest.
    pub fn mark(&self) -> [u8; 8] {
        *self.digest().first_chunk().unwrap()
    }

    /// SHA-256 over all that the machine is.
    pub fn digest(&self) -> [u8; 32] {
        let mut bytes = Vec::with_capacity(4419);
        bytes.extend(self.memory);
        bytes.extend(self.v);
        bytes.extend(self.i.to_be_bytes());
        bytes.extend(self.pc.to_be_bytes());
        bytes.push(self.depth);
        bytes.extend(self.stack.iter().flat_map(|place| place.to_be_bytes()));
        bytes.extend(self.screen.iter().flat_map(|row| row.to_be_bytes()));
        bytes.extend([self.timer, self.tone]);
        bytes.extend(self.keys.to_be_bytes());
        bytes.push(self.waits.unwrap_or(0xff));
        bytes.extend(self.draws.to_be_bytes());
        bytes.push(self.stop);
        sha256(&bytes)
    }
}

fn random_byte(seed: u64, draws: u64) -> u8 {
    let mut bytes = [0; 16];
    bytes[..8].copy_from_slice(&seed.to_be_bytes());
    bytes[8..].copy_from_slice(&draws.to_be_bytes());
    sha256(&bytes)[0]
}
