use super::*;

/// The waits, with owners that are their names, and what was told of them.
#[derive(Default)]
struct World {
    waits: Waits<&'static str>,
    locks: Vec<WaitId>,
    told: Vec<String>,
}

impl World {
    fn add(&mut self, owner: &'static str, target: &str, parent: &str) -> WaitId {
        let wait = self.waits.add(owner, target.as_bytes(), parent.as_bytes());
        self.settle();
        wait
    }

    fn replied(&mut self, wait: WaitId, reply: &str) {
        self.waits.replied(wait, reply.as_bytes());
        self.settle();
    }

    fn released(&mut self, target: &str) {
        self.waits.released(target.as_bytes());
        self.settle();
    }

    /// Adds a wait whose lock is free, or held.
    fn answered(&mut self, owner: &'static str, target: &str, parent: &str, reply: &str) {
        let wait = self.add(owner, target, parent);
        self.replied(wait, reply);
    }

    fn settle(&mut self) {
        while let Some(effect) = self.waits.next_effect() {
            match effect {
                Effect::Lock { wait, .. } => self.locks.push(wait),
                Effect::Unlock { owner, .. } => self.told.push(format!("{owner} unlock")),
                Effect::Answer { owner, answer, .. } => {
                    let answer = String::from_utf8(answer).unwrap();
                    self.told.push(format!("{owner} {answer}"));
                }
            }
        }
    }

    fn last_lock(&self) -> WaitId {
        *self.locks.last().unwrap()
    }

    fn is_empty(&self) -> bool {
        let waits = &self.waits;
        waits.waits.is_empty()
            && waits.lines.is_empty()
            && waits.granted.is_empty()
            && waits.needs.is_empty()
    }
}

#[test]
fn they_keep_their_order_if_replies_come_late() {
    let mut world = World::default();
    let first = world.add("first", "a", "-");
    let second = world.add("second", "a", "-");
    world.replied(first, "busy 1");
    world.add("third", "a", "-");
    world.replied(second, "busy 1");
    for number in 2..5 {
        world.released("a");
        let lock = world.last_lock();
        world.replied(lock, &format!("granted {number}"));
    }
    let wanted = ["first granted 2", "second granted 3", "third granted 4"];
    assert_eq!(world.told, wanted);
    world.released("a");
    assert!(world.is_empty());
}

#[test]
fn the_next_is_served_if_the_database_has_no_memory() {
    let mut world = World::default();
    world.answered("first", "a", "-", "busy 1");
    world.add("second", "a", "-");
    world.released("a");
    let lock = world.last_lock();
    world.replied(lock, "fault memory");
    let lock = world.last_lock();
    world.replied(lock, "granted 2");
    assert_eq!(world.told, ["first fault memory", "second granted 2"]);
}

#[test]
fn what_was_granted_too_late_is_unlocked_unless_its_session_ends() {
    let mut world = World::default();
    let late = world.add("late", "a", "-");
    let lost = world.add("lost", "b", "-");
    world.waits.give_up(late, GivenUp::Forgotten);
    world.waits.give_up(lost, GivenUp::Lost);
    world.replied(late, "granted 1");
    world.replied(lost, "granted 1");
    assert_eq!(world.told, ["late unlock"]);
    assert!(world.is_empty());
}

#[test]
fn one_that_is_given_up_leaves_its_place_to_the_next() {
    let mut world = World::default();
    let first = world.add("first", "a", "p");
    world.replied(first, "busy 1");
    world.add("second", "a", "p");
    world.waits.give_up(first, GivenUp::Forgotten);
    world.released("a");
    let lock = world.last_lock();
    world.replied(lock, "granted 2");
    assert_eq!(world.told, ["second granted 2"]);
}

#[test]
fn a_ring_is_refused_with_its_names() {
    let mut world = World::default();
    world.add("self", "a", "a");
    for (target, parent) in [("a", "-"), ("b", "a"), ("c", "b")] {
        world.answered("built", target, parent, "granted 1");
    }
    world.answered("ring", "a", "c", "busy 1");
    assert_eq!(world.told[0], "self ring a a");
    assert_eq!(world.told[4], "ring ring a b c a");
}

#[test]
fn a_ring_ends_with_the_release_of_a_name_on_it() {
    let mut world = World::default();
    world.answered("one", "a", "-", "granted 1");
    world.answered("one", "b", "a", "granted 1");
    world.released("b");
    world.answered("two", "b", "-", "granted 2");
    world.answered("waits", "a", "b", "busy 1");
    assert_eq!(world.told.len(), 3);
    world.released("a");
    let lock = world.last_lock();
    world.replied(lock, "granted 2");
    assert_eq!(world.told[3], "waits granted 2");
}

#[test]
fn nobody_waits_for_the_top_level() {
    let mut world = World::default();
    world.answered("one", "a", "-", "granted 1");
    world.answered("two", "b", "a", "granted 1");
    world.answered("three", "b", "-", "busy 1");
    assert_eq!(world.told.len(), 2);
}
