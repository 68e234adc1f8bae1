//! Runs that are drawn at random: what is shown of them is compared with what has to be.

use super::tests::Run;
use super::{BuildId, Errors};

const RUNS: u64 = 60;
const STEPS: u32 = 60;
const MOST_BUILDS: usize = 12;

/// What a build does, in its order.
#[derive(Clone, Copy)]
enum Deed {
    Says(usize),
    AsksFor(usize),
}

struct Build {
    id: BuildId,
    asker: Option<usize>,
    depth: usize,
    deeds: Vec<Deed>,
    is_running: bool,
}

struct Drawn {
    run: Run,
    builds: Vec<Build>,
    lines: usize,
    seed: u64,
    may_fail: bool,
}

impl Drawn {
    fn new(seed: u64, may_fail: bool) -> Drawn {
        let mut drawn = Drawn {
            run: Run::new(Errors::Logs),
            builds: Vec::new(),
            lines: 0,
            seed: seed.wrapping_mul(0x9e37_79b9_7f4a_7c15) | 1,
            may_fail,
        };
        for _ in 0..STEPS {
            drawn.step();
        }
        drawn.end_all();
        drawn
    }

    /// Returns a number below this one.
    fn draw(&mut self, below: usize) -> usize {
        self.seed ^= self.seed << 13;
        self.seed ^= self.seed >> 7;
        self.seed ^= self.seed << 17;
        (self.seed % below as u64) as usize
    }

    fn running(&self) -> Vec<usize> {
        (0..self.builds.len())
            .filter(|number| self.builds[*number].is_running)
            .collect()
    }

    fn step(&mut self) {
        let running = self.running();
        let chosen = match running.len() {
            0 => None,
            count => Some(running[self.draw(count)]),
        };
        match (self.draw(6), chosen) {
            (0, _) | (_, None) => self.begin(None),
            (1 | 2, asker) => self.begin(asker),
            (3 | 4, Some(number)) => self.say(number),
            (_, Some(number)) => self.end(number),
        }
    }

    fn begin(&mut self, asker: Option<usize>) {
        let number = self.builds.len();
        if number == MOST_BUILDS {
            return;
        }
        let asker_id = asker.map(|asker| self.builds[asker].id);
        let id = self.run.begin(&format!("t{number}"), asker_id);
        asker
            .into_iter()
            .for_each(|asker| self.builds[asker].deeds.push(Deed::AsksFor(number)));
        self.builds.push(Build {
            id,
            asker,
            depth: asker.map_or(0, |asker| self.builds[asker].depth + 1),
            deeds: Vec::new(),
            is_running: true,
        });
    }

    fn say(&mut self, number: usize) {
        let line = self.lines;
        self.lines += 1;
        self.builds[number].deeds.push(Deed::Says(line));
        self.run
            .writes(self.builds[number].id, &format!("line {line}\n"));
    }

    fn end(&mut self, number: usize) {
        self.builds[number].is_running = false;
        let id = self.builds[number].id;
        if self.may_fail && self.draw(2) == 0 {
            self.run.fails(id);
            self.check_told(number);
        } else {
            self.run.ends(id);
        }
    }

    /// Ends what still runs, the latest first.
    fn end_all(&mut self) {
        self.running()
            .into_iter()
            .rev()
            .for_each(|number| self.end(number));
        self.run.display.finish(false);
    }

    /// Checks that all that a build which failed has said is shown by now, in its order.
    fn check_told(&self, number: usize) {
        let shown = self.run.shown.text();
        let mut rest = shown.lines();
        let mut lines = self.builds[number]
            .deeds
            .iter()
            .filter_map(|deed| match deed {
                Deed::Says(line) => Some(format!("line {line}")),
                Deed::AsksFor(_) => None,
            });
        let header = self.header(number);
        assert!(rest.any(|shown| shown == header), "{header} in {shown}");
        assert!(
            lines.all(|line| rest.any(|shown| shown == line)),
            "t{number} in {shown}"
        );
        assert_eq!(
            shown
                .matches(&format!("redo: t{number}: status 3\n"))
                .count(),
            1
        );
    }

    fn header(&self, number: usize) -> String {
        format!("redo  {}t{number}", "  ".repeat(self.builds[number].depth))
    }

    /// Returns what is shown of a build that nobody waits for.
    fn wanted(&self, number: usize) -> Vec<String> {
        let build = &self.builds[number];
        let deeds = build.deeds.iter().flat_map(|deed| match deed {
            Deed::Says(line) => vec![format!("line {line}")],
            Deed::AsksFor(child) => self.wanted(*child),
        });
        std::iter::once(self.header(number)).chain(deeds).collect()
    }
}

#[test]
fn a_run_without_failures_is_shown_in_the_order_of_requests() {
    for seed in 1..RUNS {
        let drawn = Drawn::new(seed, false);
        let users = (0..drawn.builds.len()).filter(|number| drawn.builds[*number].asker.is_none());
        let wanted: Vec<String> = users.flat_map(|number| drawn.wanted(number)).collect();
        let shown = drawn.run.shown.text();
        assert_eq!(shown.lines().collect::<Vec<_>>(), wanted, "run {seed}");
    }
}

#[test]
fn each_line_of_a_run_with_failures_is_shown_once() {
    for seed in 1..RUNS {
        let drawn = Drawn::new(seed, true);
        let shown = drawn.run.shown.text();
        let mut lines: Vec<&str> = shown.lines().collect();
        lines.sort_unstable();
        let headers = (0..drawn.builds.len()).map(|number| drawn.header(number));
        let said = (0..drawn.lines).map(|line| format!("line {line}"));
        let errors = lines
            .iter()
            .filter(|line| line.starts_with("redo: "))
            .map(ToString::to_string);
        let mut wanted: Vec<String> = headers.chain(said).chain(errors).collect();
        wanted.sort_unstable();
        assert_eq!(lines, wanted, "run {seed}");
    }
}
