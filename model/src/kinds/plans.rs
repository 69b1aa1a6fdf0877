//! Plans: lists of calls that belong together.

use super::arguments::{all_held, idle, misplaced, move_call, safe};
use super::maker::Maker;
use crate::calls::{perform_by, Call};
use crate::control::{bit, count, has, Control};
use crate::edition::Edition;
use crate::image::held;
use crate::sites::members;

/// Calls and the image as they leave it if nothing comes between.
struct Rehearsal {
    edition: Edition,
    image: Vec<u8>,
    calls: Vec<Call>,
}

impl Rehearsal {
    fn new(maker: &Maker) -> Rehearsal {
        Rehearsal { edition: maker.edition, image: maker.image.clone(), calls: Vec::new() }
    }

    fn push(&mut self, call: Call) {
        perform_by(self.edition, &mut self.image, &call);
        self.calls.push(call);
    }

    fn control(&self) -> Control {
        Control::read_by(self.edition, &self.image).expect("calls keep the form")
    }

    /// Moves those that are held and misplaced when their turn comes.
    fn move_all(&mut self, found: Vec<(usize, usize)>) {
        let control = self.control();
        for (card, block) in found {
            if held(&self.image, card, block) && misplaced(&self.image, &control, card, block) {
                self.push(move_call(card, block));
            }
        }
    }
}

impl Maker {
    /// Closes what is open, perhaps fits and places, moves all that is misplaced,
    /// settles, and looks at the outcome.
    pub(super) fn plan_reorganisation(&mut self, control: &Control) {
        let mut plan = Rehearsal::new(self);
        for transaction in control.open() {
            match self.random.below(6) {
                0 => {}
                1 => plan.push(Call::Rollback { transaction }),
                _ => plan.push(Call::Commit { transaction }),
            }
        }
        for card in idle(control) {
            if self.random.chance(500) {
                plan.push(Call::Fit { card: card as u8 });
            }
        }
        let fitted = plan.control();
        if fitted.placements.len() < 3 && self.random.chance(650) {
            plan.push(self.place_call(&fitted));
        }
        let mut found = all_held(&self.image, fitted.working);
        self.random.shuffle(&mut found);
        plan.move_all(found);
        plan.push(Call::Settle);
        self.look_round(&mut plan);
        self.plan = plan.calls.into();
    }

    /// State, loads, and perhaps the withdrawal of a card that is left over.
    fn look_round(&mut self, plan: &mut Rehearsal) {
        plan.push(Call::State);
        let control = plan.control();
        let mut left_over = members(control.working);
        for card in &left_over {
            if self.random.chance(500) {
                plan.push(Call::Load { card: *card as u8 });
            }
        }
        left_over.retain(|card| !has(control.newest().mask, *card));
        if let Some(card) = self.random.any_of(&left_over) {
            if self.random.chance(400) {
                plan.push(Call::Withdraw { card: card as u8 });
            }
        }
    }

    /// One transaction writes or reads many records.
    pub(super) fn plan_batch(&mut self, control: &Control, writes: bool) {
        let (transaction, home) = self.newcomer(control);
        self.plan.push_back(Call::Begin { transaction, home });
        for _ in 0..10 + self.random.below(60) {
            let record = self.record();
            let value = self.value();
            self.plan.push_back(if writes {
                Call::Store { transaction, record, value }
            } else {
                Call::Get { transaction, record }
            });
        }
        self.plan.push_back(if self.random.chance(850) {
            Call::Commit { transaction }
        } else {
            Call::Rollback { transaction }
        });
    }

    /// Places until three are active, then a member of the newest fails: four are active.
    pub(super) fn plan_four(&mut self, control: &Control) {
        let mut ahead = control.clone();
        while ahead.placements.len() < 3 {
            let mask = self.some_mask(ahead.working, 3, 8);
            if count(mask) < 2 || mask == ahead.newest().mask {
                return;
            }
            self.plan.push_back(Call::Place { mask });
            ahead.placements.push(self.edition.placement(mask));
            let record = self.record();
            if let Some(transaction) = self.random.any_of(&ahead.open()) {
                let value = self.value();
                self.plan.push_back(Call::Store { transaction, record, value });
            }
        }
        if let Some(card) = self.random.any_of(&safe(&ahead, ahead.newest().mask)) {
            self.plan_failure(&ahead, card);
        }
    }

    /// The card fails, records are used, a placement too many is tried, and
    /// perhaps a further card fails.
    fn plan_failure(&mut self, control: &Control, card: usize) {
        self.plan.push_back(Call::Fail { card: card as u8 });
        self.plan.push_back(Call::State);
        let (transaction, home) = self.newcomer(control);
        if home as usize != card {
            self.plan.push_back(Call::Begin { transaction, home });
            for _ in 0..3 {
                let record = self.record();
                self.plan.push_back(Call::Get { transaction, record });
            }
            let (record, value) = (self.record(), self.value());
            self.plan.push_back(Call::Store { transaction, record, value });
            self.plan.push_back(Call::Commit { transaction });
        }
        let mask = self.some_mask(control.working & !bit(card), 2, 8);
        self.plan.push_back(Call::Place { mask });
        if self.random.chance(500) {
            let other = self.random.one_of(&members(control.working)) as u8;
            self.plan.push_back(Call::Fail { card: other });
        }
    }

    /// Under other rules than before, most often a placement is added, by a place or a
    /// failure, and records are used, or those that are there are; else the plan goes on.
    pub(super) fn plan_going_on(&mut self, control: &Control) {
        if self.random.chance(250) {
            return;
        }
        self.plan.clear();
        self.steady = false;
        match self.random.below(6) {
            0..=2 => self.plan_reorganisation(control),
            3 => self.plan_use_of_all(control),
            4 if control.placements.len() < 3 => self.plan_place(control),
            _ => self.plan_four(control),
        }
    }

    /// A place, and records are written and read after it.
    fn plan_place(&mut self, control: &Control) {
        let mask = self.mask_to_place(control);
        self.plan.push_back(Call::Place { mask });
        let mut ahead = control.clone();
        ahead.placements.push(self.edition.placement(mask));
        for writes in [true, false] {
            self.plan_batch(&ahead, writes);
        }
    }

    /// A transaction stays open while its home leaves every placement, then a
    /// withdraw. Nothing comes between.
    pub(super) fn plan_homeless(&mut self, control: &Control) {
        let newest = members(control.newest().mask);
        if newest.len() < 3 || control.placements.len() > 2 {
            return;
        }
        let card = self.random.one_of(&newest);
        let transaction = 1 + self.random.below(15) as u8;
        let mut plan = Rehearsal::new(self);
        for transaction in control.open() {
            plan.push(Call::Commit { transaction });
        }
        plan.push(Call::Begin { transaction, home: card as u8 });
        plan.push(Call::Place { mask: control.newest().mask & !bit(card) });
        plan.move_all(all_held(&self.image, control.working));
        plan.push(Call::Store { transaction, record: self.record(), value: 14 });
        plan.push(Call::Settle);
        plan.push(Call::Withdraw { card: card as u8 });
        plan.push(Call::Commit { transaction });
        plan.push(Call::Withdraw { card: card as u8 });
        self.plan = plan.calls.into();
        self.steady = true;
    }
}
