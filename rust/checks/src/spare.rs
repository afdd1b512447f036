//! Lists with settings that change nothing.

use crate::listings::lawful_record;
use crate::random::Random;
use reference::format::{encode_header, encode_record};
use reference::list::{Accepted, Drawing};
use reference::shape::{Clip, Record, Setting};

/// A list of the same shapes under the same settings. It may set them more often than it has to, and
/// in any order, and it may have other settings in between and behind the last shape.
pub fn with_spare_settings(random: &mut Random, accepted: &Accepted) -> Vec<u8> {
    let mut listing = Listing::new(accepted);
    for drawing in &accepted.drawings {
        listing.set_any(random, accepted);
        listing.set_each(random, drawing);
        listing.push(Record::Shape(drawing.shape));
    }
    listing.set_any(random, accepted);
    listing.push(Record::End);
    listing.list
}

/// A list up to some record, and what is in force there.
struct Listing {
    list: Vec<u8>,
    version: u16,
    clip: Clip,
    level: u8,
    player: u8,
}

impl Listing {
    fn new(accepted: &Accepted) -> Listing {
        let header = &accepted.header;
        Listing {
            list: encode_header(header),
            version: header.version,
            clip: Clip::whole(header.width, header.height),
            level: 255,
            player: 0,
        }
    }

    fn push(&mut self, record: Record) {
        match record {
            Record::Setting(Setting::Clip(clip)) => self.clip = clip,
            Record::Setting(Setting::Level(level)) => self.level = level,
            Record::Setting(Setting::Player(player)) => self.player = player,
            Record::Shape(_) | Record::End => {}
        }
        self.list.extend(encode_record(&record));
    }

    /// Whether a setting changes nothing here.
    fn has(&self, setting: Setting) -> bool {
        match setting {
            Setting::Clip(clip) => self.clip == clip,
            Setting::Level(level) => self.level == level,
            Setting::Player(player) => self.player == player,
        }
    }

    /// None, or some that a later one takes back.
    fn set_any(&mut self, random: &mut Random, accepted: &Accepted) {
        for _ in 0..random.pick(&[0, 0, 1, 4]) {
            let setting = any_setting(random, accepted);
            self.push(Record::Setting(setting));
        }
    }

    /// Those of the drawing, in any order; of those that are in force already one in three.
    fn set_each(&mut self, random: &mut Random, drawing: &Drawing) {
        let mut settings = settings_at(drawing, self.version);
        while !settings.is_empty() {
            let next = random.between(0, settings.len() as i64 - 1) as usize;
            let setting = settings.remove(next);
            if !self.has(setting) || random.one_in(3) {
                self.push(Record::Setting(setting));
            }
        }
    }
}

/// Version 1 has no player.
fn settings_at(drawing: &Drawing, version: u16) -> Vec<Setting> {
    let mut settings = vec![Setting::Clip(drawing.clip), Setting::Level(drawing.level)];
    if version == 2 {
        settings.push(Setting::Player(drawing.player));
    }
    settings
}

/// One of some drawing, or any that is lawful.
fn any_setting(random: &mut Random, accepted: &Accepted) -> Setting {
    let header = &accepted.header;
    if !accepted.drawings.is_empty() && random.flip() {
        let drawing = random.pick(&accepted.drawings);
        return random.pick(&settings_at(&drawing, header.version));
    }
    loop {
        if let Record::Setting(setting) = lawful_record(random, header.basis()) {
            return setting;
        }
    }
}
