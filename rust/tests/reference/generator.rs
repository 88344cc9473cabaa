//! TinyMT32 (RFC 8682), as document 01 words it.

const A: u32 = 0x8f70_11ee;
const B: u32 = 0xfc78_ff1f;
const C: u32 = 0x3793_fdff;

pub struct Generator {
    s: [u32; 4],
    /// The draws so far. The eight steps of the start are none.
    pub draws: u64,
}

impl Generator {
    pub fn new(seed: u32) -> Generator {
        let mut s = [seed, A, B, C];
        for i in 1..8u32 {
            let p = s[(i as usize - 1) % 4];
            s[i as usize % 4] ^= i.wrapping_add(1_812_433_253u32.wrapping_mul(p ^ (p >> 30)));
        }
        let mut generator = Generator { s, draws: 0 };
        for _ in 0..8 {
            generator.step();
        }
        generator
    }

    fn step(&mut self) {
        let [s0, s1, s2, s3] = self.s;
        let mut q = (s0 & 0x7fff_ffff) ^ s1 ^ s2;
        q ^= q << 1;
        let y = s3 ^ (s3 >> 1) ^ q;
        self.s = [s1, s2, q ^ (y << 10), y];
        if y % 2 == 1 {
            self.s[1] ^= A;
            self.s[2] ^= B;
        }
    }

    pub fn draw(&mut self) -> u32 {
        self.draws += 1;
        self.step();
        let u = self.s[0].wrapping_add(self.s[2] >> 8);
        let mixed = self.s[3] ^ u;
        if u % 2 == 1 {
            mixed ^ C
        } else {
            mixed
        }
    }

    pub fn rand16(&mut self) -> u8 {
        (self.draw() % 16) as u8
    }

    pub fn rand256(&mut self) -> u8 {
        (self.draw() % 256) as u8
    }
}
