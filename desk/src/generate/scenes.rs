//! Requests about one key list and one entry.

use super::rivals::Rival;
use super::rng::Rng;
use super::{
    bits, blocks, buffers, contracts, damage, entries, entry_tables, explanations, files, limits,
    lists, octals, parted, prints, programs, rechecks, rivals, skips, snippets, spelling, texts,
};
use crate::lists::{list_bytes, NamedKey};
use crate::reference;
use crate::reference::blocks::{all_parts, blocks_of, bytes_needed};
use crate::reference::code::Parts;
use crate::reference::entries::Entry;
use crate::reference::Answer;
use crate::requests::{Call, Request, LONGEST_INPUT};

/// A good key list with a conforming entry.
pub struct Scene {
    pub keys: Vec<NamedKey>,
    pub entry: Entry,
    /// Are these the keys of the snippets?
    pub marked: bool,
}

impl Scene {
    /// Once in `marked_in` times document 01's keys; else about so many others.
    pub fn new(rng: &mut Rng, marked_in: usize, about: usize) -> Scene {
        let marked = rng.one_in(marked_in);
        let keys = if marked {
            snippets::marked_keys()
        } else {
            lists::good(rng, about)
        };
        let entry = if marked && rng.one_in(2) {
            snippets::marked_entry()
        } else {
            entries::good(rng, &keys)
        };
        Scene {
            keys,
            entry,
            marked,
        }
    }

    /// As many keys as there may be.
    fn full(rng: &mut Rng) -> Scene {
        let keys = lists::full(rng);
        Scene {
            entry: entries::good(rng, &keys),
            keys,
            marked: false,
        }
    }

    /// No keys at all.
    fn without_keys(rng: &mut Rng) -> Scene {
        Scene {
            keys: Vec::new(),
            entry: entries::good(rng, &[]),
            marked: false,
        }
    }

    pub fn request(&self, rng: &mut Rng, call: Call) -> Request {
        let none = Vec::new;
        match call {
            Call::Read => Request::new(call, self.text(rng), none(), none()),
            Call::Check => Request::new(call, self.text(rng), self.list(rng), none()),
            Call::Judge => self.judge(rng),
            Call::Translate => self.translate(rng),
            Call::Load => Request::new(call, self.list(rng), self.blocks(rng), none()),
            Call::Run => self.run(rng),
            Call::Print => self.print(rng),
            Call::Explain => self.explain(rng),
            Call::Summarize => self.summarize(rng),
            Call::Recheck => self.recheck(rng),
            Call::FixOctal => self.fix_octal(rng),
            // A contract has names and a table of its own.
            Call::Pact => contracts::request(rng),
            Call::Compare => self.compare(rng),
            Call::Count => self.count(rng),
            Call::RunAll => self.run_all(rng),
        }
    }

    fn judge(&self, rng: &mut Rng) -> Request {
        let (text, list, entry) = if rng.one_in(7) {
            // The entry alone is wrong, so that its fault shows.
            let (text, list) = (self.good_text(rng), list_bytes(&self.keys));
            (text, list, self.damaged_entry(rng))
        } else {
            (self.text(rng), self.list(rng), self.entry(rng))
        };
        Request::new(Call::Judge, text, list, entry)
    }

    fn translate(&self, rng: &mut Rng) -> Request {
        let (text, list) = (self.text(rng), self.list(rng));
        let buffer = buffers::for_translation(rng, &text, &list);
        Request::new(Call::Translate, text, list, buffer)
    }

    fn run(&self, rng: &mut Rng) -> Request {
        let (list, blocks, entry) = if rng.one_in(7) {
            let blocks = blocks_of(&self.translation(rng), self.keys.len());
            (list_bytes(&self.keys), blocks, self.damaged_entry(rng))
        } else {
            (self.list(rng), self.blocks(rng), self.entry(rng))
        };
        Request::new(Call::Run, list, blocks, entry)
    }

    fn print(&self, rng: &mut Rng) -> Request {
        let text = if rng.one_in(3) {
            prints::text(rng, &self.keys, &self.entry)
        } else {
            self.text(rng)
        };
        let passed_over = self.list_passed_over(rng);
        let buffer = buffers::for_print(rng, &text);
        Request::new(Call::Print, text, passed_over, buffer)
    }

    /// What stands in the place of a list, for a call that takes none and passes
    /// over it; most often nothing.
    fn list_passed_over(&self, rng: &mut Rng) -> Vec<u8> {
        if rng.one_in(10) {
            self.list(rng)
        } else {
            Vec::new()
        }
    }

    fn explain(&self, rng: &mut Rng) -> Request {
        match rng.below(8) {
            0 | 1 => {
                // Whatever is judged may be explained.
                let inputs = self.judge(rng).inputs;
                let call = Call::Explain.byte();
                Request { call, inputs }
            }
            2 | 3 => Scene::full(rng).explain_a_key(rng),
            _ => {
                let text = explanations::text(rng, &self.keys, &self.entry);
                Request::new(Call::Explain, text, self.list(rng), self.entry(rng))
            }
        }
    }

    /// The entry alone is wrong, most often at a key.
    fn explain_a_key(&self, rng: &mut Rng) -> Request {
        let (text, list) = (self.good_text(rng), list_bytes(&self.keys));
        let entry = explanations::broken_entry(rng, &self.keys, &self.entry);
        Request::new(Call::Explain, text, list, entry)
    }

    fn summarize(&self, rng: &mut Rng) -> Request {
        if rng.one_in(4) {
            return Scene::full(rng).summarize_here(rng);
        }
        self.summarize_here(rng)
    }

    fn summarize_here(&self, rng: &mut Rng) -> Request {
        let (text, list) = (self.naming_text(rng), self.list(rng));
        // A summary takes no entry, and passes over whatever stands in its place.
        let passed_over = if rng.one_in(10) {
            self.entry(rng)
        } else {
            Vec::new()
        };
        Request::new(Call::Summarize, text, list, passed_over)
    }

    fn recheck(&self, rng: &mut Rng) -> Request {
        if rng.one_in(4) {
            return Scene::full(rng).recheck_here(rng);
        }
        self.recheck_here(rng)
    }

    fn recheck_here(&self, rng: &mut Rng) -> Request {
        let text = self.naming_text(rng);
        let change = rechecks::change(rng, &text, &self.keys, &self.entry);
        let third = if rng.one_in(16) {
            rechecks::malformed(rng, &change)
        } else {
            change.to_bytes()
        };
        Request::new(Call::Recheck, text, self.list(rng), third)
    }

    fn fix_octal(&self, rng: &mut Rng) -> Request {
        let text = if rng.one_in(4) {
            self.text(rng)
        } else {
            octals::text(rng, &self.keys, &self.entry)
        };
        let passed_over = self.list_passed_over(rng);
        let buffer = buffers::for_fixed_text(rng, &text);
        Request::new(Call::FixOctal, text, passed_over, buffer)
    }

    /// Another translator's blocks for a text, or any others.
    fn compare(&self, rng: &mut Rng) -> Request {
        let mut text = if rng.one_in(5) {
            self.text(rng)
        } else {
            parted::text(rng, &self.keys, &self.entry)
        };
        let rival = Rival::any(rng);
        let mut blocks = match rivals::blocks(rng, rival, &text, &self.keys) {
            Some(blocks) if !rng.one_in(20) => blocks,
            _ => self.blocks(rng),
        };
        // A long part that is used twice may be over the limit of the framing.
        blocks.truncate(LONGEST_INPUT);
        if rng.one_in(20) {
            // The text alone is wrong, or another.
            damage::any(rng, &mut text);
        }
        Request::new(Call::Compare, text, self.list(rng), blocks)
    }

    /// A file of entries, for these keys, for all or for none.
    fn count(&self, rng: &mut Rng) -> Request {
        match rng.below(12) {
            0 => Scene::full(rng).count_here(rng),
            1 => Scene::without_keys(rng).count_here(rng),
            _ => self.count_here(rng),
        }
    }

    fn count_here(&self, rng: &mut Rng) -> Request {
        let mut text = match rng.below(24) {
            0 => bits::text(rng, &self.keys),
            1..=4 => self.text(rng),
            5..=12 => explanations::all_true(rng, &self.keys, &self.entry),
            _ => parted::text(rng, &self.keys, &self.entry),
        };
        if rng.one_in(20) {
            damage::any(rng, &mut text);
        }
        let file = files::entries(rng, &self.keys, &self.entry);
        Request::new(Call::Count, text, self.list(rng), file)
    }

    /// A table of entries, for these keys, for all or for none.
    fn run_all(&self, rng: &mut Rng) -> Request {
        match rng.below(12) {
            0 => Scene::full(rng).run_all_here(rng),
            1 | 2 => Scene::without_keys(rng).run_all_here(rng),
            _ => self.run_all_here(rng),
        }
    }

    fn run_all_here(&self, rng: &mut Rng) -> Request {
        let table = entry_tables::table(rng, &self.keys, &self.entry);
        let blocks = if rng.one_in(3) {
            self.blocks(rng)
        } else {
            self.telling_blocks(rng, &table.entries)
        };
        let third = if rng.one_in(24) {
            entry_tables::malformed(rng, &table)
        } else {
            table.to_bytes()
        };
        Request::new(Call::RunAll, self.list(rng), blocks, third)
    }

    /// Blocks that load, and that accept some of these entries and not others, if such
    /// blocks are soon found.
    fn telling_blocks(&self, rng: &mut Rng, entries: &[u8]) -> Vec<u8> {
        let mut blocks = self.good_blocks(rng);
        for _ in 0..3 {
            if entry_tables::tell_apart(&self.keys, &blocks, entries) {
                break;
            }
            blocks = self.good_blocks(rng);
        }
        blocks
    }

    /// Blocks of a text, as they are, as they were made before there were skips, or with
    /// a bit changed; all of them load.
    fn good_blocks(&self, rng: &mut Rng) -> Vec<u8> {
        let text = match rng.below(6) {
            0 => parted::text(rng, &self.keys, &self.entry),
            1 => rechecks::text(rng, &self.keys, &self.entry),
            _ => explanations::all_true(rng, &self.keys, &self.entry),
        };
        let mut code = self.code_of(rng, &text);
        if rng.one_in(5) {
            code = skips::without(&code);
        }
        let blocks = blocks_of(&code, self.keys.len());
        if rng.one_in(4) {
            return blocks::damaged_and_loading(rng, &list_bytes(&self.keys), &blocks);
        }
        blocks
    }

    /// Most often a text in which it is the keys it names that count.
    fn naming_text(&self, rng: &mut Rng) -> Vec<u8> {
        if rng.one_in(4) {
            self.text(rng)
        } else {
            rechecks::text(rng, &self.keys, &self.entry)
        }
    }

    pub fn list(&self, rng: &mut Rng) -> Vec<u8> {
        if rng.one_in(16) {
            lists::damaged(rng, &self.keys)
        } else {
            list_bytes(&self.keys)
        }
    }

    pub fn entry(&self, rng: &mut Rng) -> Vec<u8> {
        if rng.one_in(10) {
            self.damaged_entry(rng)
        } else {
            self.entry.to_bytes()
        }
    }

    fn damaged_entry(&self, rng: &mut Rng) -> Vec<u8> {
        entries::damaged(rng, &self.keys, &self.entry)
    }

    /// A text whose types are good.
    fn good_text(&self, rng: &mut Rng) -> Vec<u8> {
        let joins = rng.below(10);
        let tokens = texts::tokens(rng, &self.keys, &self.entry, joins, 0);
        spelling::text(rng, &tokens)
    }

    fn text(&self, rng: &mut Rng) -> Vec<u8> {
        if self.marked && rng.one_in(2) {
            return snippets::any(rng, snippets::TEXTS);
        }
        if rng.one_in(10) {
            return self.text_at_limit(rng);
        }
        if rng.one_in(24) {
            return octals::text(rng, &self.keys, &self.entry);
        }
        if rng.one_in(16) {
            return bits::text(rng, &self.keys);
        }
        let joins = match rng.below(20) {
            0 => rng.below(60),
            1..=5 => 0,
            _ => rng.below(6),
        };
        self.plain_text(rng, joins)
    }

    /// A text well inside the limits, good or with a fault.
    fn plain_text(&self, rng: &mut Rng, joins: usize) -> Vec<u8> {
        let fault_in = if rng.one_in(5) { 6 } else { 0 };
        let mut tokens = match rng.below(40) {
            0 => texts::soup(rng, &self.keys, joins + 3),
            1 | 2 => texts::number_alone(rng, &self.keys, &self.entry),
            _ => texts::tokens(rng, &self.keys, &self.entry, joins, fault_in),
        };
        if rng.one_in(12) {
            texts::disturb(rng, &self.keys, &mut tokens);
        }
        let mut text = spelling::text(rng, &tokens);
        if rng.one_in(10) {
            damage::any(rng, &mut text);
        }
        text
    }

    fn text_at_limit(&self, rng: &mut Rng) -> Vec<u8> {
        match rng.below(8) {
            0 | 1 => limits::bytes(rng, &self.keys, &self.entry),
            2..=4 => limits::many_tokens(rng, &self.keys, &self.entry),
            5 | 6 => limits::many_levels(rng, &self.keys, &self.entry),
            _ => limits::large_numbers(rng),
        }
    }

    fn blocks(&self, rng: &mut Rng) -> Vec<u8> {
        let code = match rng.below(10) {
            0..=2 => self.translation(rng),
            // As it was made before there were skips.
            3 => skips::without(&self.translation(rng)),
            _ => self.program(rng),
        };
        let mut blocks = blocks_of(&code, self.keys.len());
        if rng.one_in(4) {
            blocks::damage(rng, &mut blocks);
        }
        blocks
    }

    /// The code of a text that translates.
    fn translation(&self, rng: &mut Rng) -> Vec<Parts> {
        let text = if rng.one_in(40) {
            limits::many_tokens(rng, &self.keys, &self.entry)
        } else {
            self.good_text(rng)
        };
        self.code_of(rng, &text)
    }

    /// The code of this text, or a few bools where it does not translate.
    fn code_of(&self, rng: &mut Rng, text: &[u8]) -> Vec<Parts> {
        let mut buffer = vec![0; bytes_needed(2 * text.len() + 1)];
        match reference::translate(text, &list_bytes(&self.keys), &mut buffer) {
            Answer::Translated(count) => all_parts(&buffer, count).collect(),
            _ => programs::bool_chain(rng, 3),
        }
    }

    fn program(&self, rng: &mut Rng) -> Vec<Parts> {
        let mut code = match rng.below(100) {
            0 => programs::many_blocks(rng),
            1 | 2 => skips::refilled(rng),
            3..=40 => self.good_program(rng),
            _ => {
                let (code, count) = (self.good_program(rng), rng.between(1, 6));
                skips::insert(rng, &code, &self.keys, count)
            }
        };
        match rng.below(6) {
            0 => programs::spoil(rng, &mut code),
            1 => skips::spoil(rng, &mut code, &self.keys),
            2 => {
                skips::spoil(rng, &mut code, &self.keys);
                skips::spoil(rng, &mut code, &self.keys);
            }
            _ => {}
        }
        code
    }

    /// Code that loads, or holds just too many values.
    fn good_program(&self, rng: &mut Rng) -> Vec<Parts> {
        match rng.below(100) {
            0..=3 => programs::many_held(rng),
            4..=11 => {
                let count = rng.between(1, 80);
                programs::bool_chain(rng, count)
            }
            12..=21 => self.translation(rng),
            _ => {
                let joins = if rng.one_in(6) {
                    rng.below(40)
                } else {
                    rng.below(8)
                };
                programs::good(rng, &self.keys, &self.entry, joins)
            }
        }
    }
}
