//! Each pass in time order beside (b), on drawn tables that R21 to R29 let through.

use super::{dense, few, many, start, Bound};
use crate::ask::{self, tested, Line};
use crate::pump::{Held, Pump, Request, SLOTS};

struct Draw(u64);

impl Draw {
    fn below(&mut self, n: u32) -> u32 {
        self.0 = self
            .0
            .wrapping_mul(6_364_136_223_846_793_005)
            .wrapping_add(1_442_695_040_888_963_407);
        ((self.0 >> 33) % u64::from(n)) as u32
    }

    /// One of the periods that divide the frame.
    fn period(&mut self, frame: u32, least: u32) -> u32 {
        loop {
            let period = frame / (1 + self.below(frame / least));
            if period < 65_536 && frame % period == 0 {
                return period;
            }
        }
    }

    /// Lines and a new, short one that take up nearly all of the pump, each line owed all or nothing; one in four leaves.
    fn question(&mut self, frame: u32, least: u32) -> (Pump, Request) {
        let mut pump = Pump::new(0);
        let mut request = Request {
            stretched: [0; SLOTS],
            need: 0,
            period: 0,
        };
        let count = 1 + self.below(15);
        let mut free = frame;
        for i in 0..count {
            let period = self.period(frame, least);
            let need = free / (frame / period) / (2 + self.below(count));
            if need > 0 {
                let (age, remaining) = (self.below(period), need * self.below(2));
                request.stretched[i as usize] = period as u16;
                pump.slots[i as usize] = Held::Running {
                    need: need as u16,
                    period: period as u16,
                    age: age as u16,
                    remaining: remaining as u16,
                    leaves: self.below(4) == 0,
                };
                free -= need * (frame / period);
            }
        }
        request.period = (0..3).map(|_| self.period(frame, least)).min().unwrap_or(1) as u16;
        request.need = (free / (frame / u32::from(request.period))) as u16;
        (pump, request)
    }

    /// Lines drawn to be owed more, as far as R29 lets them: where the lines are just up to their shares, later starts and R30 are met.
    fn owed_more(&mut self, pump: &mut Pump, request: &Request) {
        for _ in 0..64 {
            let before = *pump;
            if let Held::Running {
                need, remaining, ..
            } = &mut pump.slots[self.below(16) as usize]
            {
                *remaining += (*need - *remaining).div_ceil(2);
            }
            if tested(pump, request).is_err() {
                *pump = before;
            }
        }
    }
}

/// What (b) answered how often: at once, later, refusal 10.
fn held_to_plain(frame: u32, least: u32, times: u32) -> [u32; 3] {
    let (mut draw, mut seen) = (Draw(u64::from(frame)), [0; 3]);
    for _ in 0..times {
        let (mut pump, request) = draw.question(frame, least);
        draw.owed_more(&mut pump, &request);
        let Ok((lines, count)) = tested(&pump, &request) else {
            continue;
        };
        let plain = ask::ask(&pump, &request)
            .ok()
            .map(|start| (start - pump.clock) as u32);
        all_ways(
            &lines[..count],
            u32::from(request.need),
            u32::from(request.period),
            plain,
        );
        seen[plain.map_or(2, |ticks| usize::from(ticks > 0))] += 1;
    }
    seen
}

fn all_ways(lines: &[Line], need: u32, period: u32, plain: Option<u32>) {
    let last = lines.iter().map(|l| l.end).max().unwrap_or(0);
    let bound = || Bound {
        need,
        gap: period - need,
        best: 0,
    };
    assert_eq!(start(lines, need, period), plain);
    assert_eq!(dense(lines, last, bound()), plain);
    assert_eq!(many(lines, last, bound()), plain);
    if lines.len() <= 4 {
        assert_eq!(few::<4>(lines, last, bound()), plain);
    }
}

#[test]
fn drawn_tables() {
    let frames = [
        (24, 1),
        (360, 2),
        (5_040, 4),
        (55_440, 15),
        (720_720, 40),
        (720_720, 600),
        (997_920, 3_000),
    ];
    let seen = frames.map(|(frame, least)| held_to_plain(frame, least, 4_000));
    let [at_once, later, refused] = [0, 1, 2].map(|k| seen.iter().map(|s| s[k]).sum::<u32>());
    assert!(
        at_once > 5_000 && later > 150 && refused > 2_000,
        "{seen:?}"
    );
}
