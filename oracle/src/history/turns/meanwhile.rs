//! Turns in which other bytes stand in the place of a history's table for some calls.

use crate::boundary::Act;
use crate::draw_counts;
use crate::draw_last;
use crate::draw_late;
use crate::history::damage;
use crate::history::drawn::{on_images, Done, Drawn};
use crate::image;

impl Drawn<'_> {
    /// The table and the request are damaged for some calls, and then the table stands as it stood.
    pub(super) fn damaged_table(&mut self) -> Done {
        let (before, mut table) = (self.image(), self.table());
        let mut request = self.draw_request();
        damage::table(self.random, &mut table, &mut request);
        draw_last::any(self.random, &mut table);
        self.lay(&image::bytes(&table))?;
        let line = self.request(&request)?;
        match self.random.below(12) {
            0..=3 => self.call(Act::Ask(line)).map(|_| ())?,
            4 => self.call(Act::Admit(line)).map(|_| ())?,
            5 | 6 => {
                let times = 1 + self.random.below(4);
                self.step(times)?;
            }
            7 => {
                self.call(Act::Ready)?;
                self.call(Act::WriteCard(line))?;
            }
            _ => {
                let number = self.draw_number();
                self.call(Act::Leave(number))?;
            }
        }
        self.lay(&before)
    }

    /// R103: a table whose lines alone are late or just in time is asked and admitted to, and then the table stands as it stood.
    pub(super) fn late_table(&mut self) -> Done {
        let before = self.image();
        let (mut table, request) = draw_late::late(self.random);
        draw_counts::fitting(self.random, &mut table);
        draw_last::any(self.random, &mut table);
        self.lay(&image::bytes(&table))?;
        self.ask(&request)?;
        self.admit(&request)?;
        self.lay(&before)
    }

    /// R44, R105: lines that end together, with a last slot of any kind; somebody is admitted, let go or not, and the pump runs. Then the
    /// table stands as it stood.
    pub(super) fn tied_table(&mut self) -> Done {
        let before = self.image();
        let (table, request) = draw_last::tied(self.random);
        self.lay(&image::bytes(&table))?;
        match self.random.below(8) {
            0 | 1 => self.admit(&request)?,
            2..=4 => {
                let number = self.draw_number();
                self.call(Act::Leave(number))?;
            }
            _ => {}
        }
        let times = 1 + self.random.below(8);
        self.step(times)?;
        self.lay(&before)
    }

    /// R24, R96: counts of any kind beside lines that may be damaged too, for every call on images; then the table stands as it
    /// stood.
    pub(super) fn counted_table(&mut self) -> Done {
        let (before, mut table) = (self.image(), self.table());
        let mut request = self.draw_request();
        if self.random.below(4) > 0 {
            damage::table(self.random, &mut table, &mut request);
        }
        match self.random.below(4) {
            0 => draw_counts::fitting(self.random, &mut table),
            _ => draw_counts::too_many(self.random, &mut table),
        }
        draw_last::any(self.random, &mut table);
        let counted = image::bytes(&table);
        self.lay(&counted)?;
        let (line, number) = (self.request(&request)?, self.draw_number());
        for act in on_images(line, number) {
            self.lay(&counted)?;
            self.call(act)?;
        }
        self.lay(&before)
    }

    /// R83: the image's bytes are spoilt for some calls, and then they are as they were.
    pub(super) fn broken_image(&mut self) -> Done {
        let before = self.image();
        let request = self.draw_request();
        let acts = on_images(self.request(&request)?, self.draw_number());
        let spoilt = damage::image(self.random, &before);
        for _ in 0..=self.random.below(3) {
            let act = acts[self.random.below(acts.len() as u64) as usize];
            self.lay(&spoilt)?;
            self.call(act)?;
        }
        self.lay(&before)
    }
}
