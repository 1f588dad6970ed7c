//! Control barriers in episodes: agents that meet in one instance.

use super::{common_scope, Episode};
use crate::builder::{order, scope, Build, Row};

/// Which side of a hand-over an agent is on.
#[derive(Clone, Copy, PartialEq, Eq)]
enum Side {
    From,
    To,
    Both,
    Neither,
}

impl Episode<'_> {
    /// A control barrier that one agent releases and another acquires; others
    /// may take part in it. It has memory semantics itself, or stands between
    /// barriers that do.
    pub(super) fn hand_over_by_control(&mut self, from: u8, to: u8, is_relay: bool) {
        let execution_scope = self.wide_scope();
        let instance = self.ground.instance();
        self.arrive(from, Side::From, execution_scope, instance);
        for agent in self.bystanders(&[from, to], execution_scope) {
            self.arrive(agent, Side::Neither, execution_scope, instance);
        }
        self.is_relay = is_relay;
        self.arrive(to, Side::To, execution_scope, instance);
    }

    /// One agent writes, all meet, the others read, all meet again; so on in
    /// turns.
    pub(super) fn meet(&mut self) {
        self.agents.sort_unstable();
        self.agents.dedup();
        for _ in 0..self.random.pick(&[1, 1, 2]) {
            let writer = self.random.pick(&self.agents);
            self.write_data(writer);
            self.meet_once();
            for agent in self.agents.clone() {
                self.use_data_after_meeting(agent, writer);
            }
            if self.random.percent(40) {
                self.meet_once();
                self.write_data(self.agents[0]);
            }
            self.meet_once();
        }
    }

    fn use_data_after_meeting(&mut self, agent: u8, writer: u8) {
        if agent != writer || self.random.percent(30) {
            self.read_data(agent);
        }
    }

    /// All the agents release and acquire in one instance.
    fn meet_once(&mut self) {
        let execution_scope = self.wide_scope();
        let instance = self.ground.instance();
        for agent in self.agents.clone() {
            self.arrive(agent, Side::Both, execution_scope, instance);
        }
        for agent in self.bystanders(&self.agents.clone(), execution_scope) {
            self.arrive(agent, Side::Neither, execution_scope, instance);
        }
    }

    /// Agents that take part without having anything to hand over: none, some
    /// or all that the execution scope holds.
    fn bystanders(&mut self, present: &[u8], execution_scope: u8) -> Vec<u8> {
        let share = self.random.pick(&[0, 0, 0, 0, 0, 20, 100]);
        let may_come = |agent: &u8| {
            let near = common_scope(&[present[0], *agent], self.places);
            !present.contains(agent) && near <= execution_scope
        };
        let agents: Vec<u8> = (0..self.places.len() as u8).filter(may_come).collect();
        // Many of them would leave no room for other rows.
        let mut bystanders: Vec<u8> = Vec::new();
        for agent in agents.into_iter().take(6) {
            if self.random.percent(share) {
                bystanders.push(agent);
            }
        }
        bystanders
    }

    /// One agent's rows of a control barrier.
    fn arrive(&mut self, agent: u8, side: Side, execution_scope: u8, instance: u16) {
        let control = Row::control_barrier(agent, execution_scope, instance);
        // Without order, any scope will do.
        let any_scope = self.random.between(0, usize::from(scope::DEVICE)) as u8;
        let control = control.scope(any_scope);
        if side == Side::Neither {
            let control = self.maybe_with_order(control);
            self.push(control);
            return;
        }
        let alone = self.random.percent(65);
        let releases = side != Side::To;
        let acquires = side != Side::From;
        if releases && !alone {
            let order = self.release_order();
            self.push_fence(Row::barrier(agent, order, self.classes), true, false);
        }
        if alone {
            let order = match side {
                Side::From => self.release_order(),
                Side::To => self.acquire_order(),
                _ => order::BOTH,
            };
            let control = control.order(order, self.classes);
            self.push_fence(control, releases, acquires);
        } else {
            self.push(control);
        }
        if acquires && !alone {
            let order = self.acquire_order();
            self.push_fence(Row::barrier(agent, order, self.classes), false, true);
        }
    }

    /// A barrier in a scope that all agents of the episode share.
    fn push_fence(&mut self, row: Row, releases: bool, acquires: bool) {
        let mut row = row.scope(self.wide_scope());
        let needs = |episode: &mut Self| !episode.is_relay || episode.random.percent(10);
        if releases && needs(self) {
            row = row.make_available();
        }
        if acquires && needs(self) {
            row = row.make_visible();
        }
        self.push(row);
    }

    /// A bystander's control barrier, with memory semantics now and then.
    fn maybe_with_order(&mut self, control: Row) -> Row {
        let order = self.random.pick(&[0, 0, 1, 2, 3]);
        let classes = if order == order::RELAXED {
            0
        } else {
            self.random.between(1, 15) as u8
        };
        control.order(order, classes)
    }
}
