//! Chains in episodes: a write that is made available by one agent after the
//! other to broader and broader scopes, and visible the other way round.

use super::{common_scope, neighbours, Episode};
use crate::builder::{kind, scope, Build, Row};

impl Episode<'_> {
    /// A write, an availability chain, a visibility chain, and a use of what
    /// was written. Single elements order it only where the scopes happen to
    /// be broad enough.
    pub(super) fn chain(&mut self) {
        let from = self.agents[0];
        let to = self.other_near(from, scope::DEVICE);
        let common = common_scope(&[from, to], self.places).max(scope::WORKGROUP);
        let widest = self.random.between(common.into(), scope::DEVICE.into()) as u8;
        self.by_rows = false;
        self.write_data(from);
        if self.random.percent(25) {
            self.make_last_available(widest);
        }
        let available = self.scopes_up_to(widest);
        let visible = self.scopes_up_to(widest);
        let agent = self.make_available_on(from, &available);
        let first = self.first_of(to, &visible);
        self.hand_on(agent, first, widest);
        self.make_visible_on(first, to, &visible);
        self.use_data(to);
    }

    /// Scopes that increase to the widest: two to four of them, or just one.
    fn scopes_up_to(&mut self, widest: u8) -> Vec<u8> {
        let share = self.random.pick(&[0, 50, 70, 100]);
        let mut scopes = Vec::new();
        for scope in scope::SUBGROUP..widest {
            if self.random.percent(share) {
                scopes.push(scope);
            }
        }
        scopes.push(widest);
        scopes
    }

    /// Lets a plain write begin the chain itself, in a narrow scope.
    fn make_last_available(&mut self, widest: u8) {
        let narrow = self.random.between(1, usize::from(widest) - 1) as u8;
        if let Some(row) = self
            .rows
            .last_mut()
            .filter(|row| row.kind == kind::PLAIN_WRITE)
        {
            *row = row.make_available().scope(narrow);
        }
    }

    /// One element for each scope, the next by an agent that shares the scope
    /// with the one before; gives the last agent, who has yet to hand on.
    fn make_available_on(&mut self, from: u8, scopes: &[u8]) -> u8 {
        let mut agent = from;
        for (place, scope) in scopes.iter().enumerate() {
            let barrier = self.fence(agent, true, *scope).make_available();
            self.push(barrier);
            if place + 1 < scopes.len() {
                let next = self.other_near(agent, *scope);
                self.hand_on(agent, next, *scope);
                agent = next;
            }
        }
        agent
    }

    /// Who begins a visibility chain that ends with an agent.
    fn first_of(&mut self, to: u8, scopes: &[u8]) -> u8 {
        if scopes.len() == 1 {
            return to;
        }
        // Only the last scopes keep it near to the end.
        self.other_near(to, scopes[scopes.len() - 2])
    }

    /// Another agent that shares a scope with an agent, if there is one.
    fn other_near(&mut self, agent: u8, scope: u8) -> u8 {
        let mut near = neighbours(agent, scope, self.places);
        if near.len() > 1 && self.random.percent(90) {
            near.retain(|other| *other != agent);
        }
        self.random.pick(&near)
    }

    /// One element for each scope, from the widest to the narrowest, the last
    /// by the agent that reads.
    fn make_visible_on(&mut self, first: u8, to: u8, scopes: &[u8]) {
        let mut agent = first;
        for place in (0..scopes.len()).rev() {
            let barrier = self.fence(agent, false, scopes[place]).make_visible();
            self.push(barrier);
            if place > 0 {
                let next = if place == 1 {
                    to
                } else {
                    self.other_near(to, scopes[place - 2])
                };
                self.hand_on(agent, next, scopes[place - 1]);
                agent = next;
            }
        }
    }

    /// A barrier that holds the episode's classes.
    fn fence(&mut self, agent: u8, is_release: bool, scope: u8) -> Row {
        let order = if is_release {
            self.release_order()
        } else {
            self.acquire_order()
        };
        Row::barrier(agent, order, self.classes).scope(scope)
    }

    /// A flag released and acquired that makes nothing available or visible.
    fn hand_on(&mut self, from: u8, to: u8, scope: u8) {
        if from == to {
            return;
        }
        let own = self.scope;
        self.scope = scope.max(common_scope(&[from, to], self.places));
        self.flag = self.ground.atomic_place(self.random);
        self.classes |= self.flag.class_bit();
        self.last_flag_writer = crate::builder::INITIAL;
        let was_relay = self.is_relay;
        self.is_relay = true;
        self.hand_over(from, to);
        self.is_relay = was_relay;
        self.scope = own;
    }
}
