//! The script of `siri load`, which is made as it is played.
use super::item::{Asked, Item, stop, visit_key};
use super::producer::Wanted;
use super::World;

const FIRST: i64 = 1_714_521_600_000;
const LAST: i64 = 1_717_113_600_000;
const CONSUMER: &str = "load";

struct Played {
    world: World,
    drawn: u64,
    lines: u64,
    looked: usize,
    lost: u64,
}

impl Played {
    fn draw(&mut self, below: u64) -> u64 {
        self.drawn = self.drawn.wrapping_mul(6_364_136_223_846_793_005).wrapping_add(1_442_695_040_888_963_407);
        (self.drawn >> 33) % below
    }

    /// Every new packet in order is delivered, or lost as it is drawn.
    fn deliver(&mut self, may_lose: bool) {
        while self.looked < self.world.packets.len() {
            self.looked += 1;
            if may_lose && self.draw(10) == 0 {
                self.lost += 1;
                continue;
            }
            self.world.deliver(self.looked);
            self.lines += 1;
        }
    }

    fn event(&mut self) {
        self.lines += 1;
        let kind = self.draw(10);
        if kind == 0 {
            let now = self.world.now + 1000 * (self.draw(60) as i64 + 1);
            return self.world.clock(now);
        }
        let (at, identifier) = (self.draw(4) + 1, self.draw(500));
        let (key, place) = visit_key(&format!("s{at}"), &format!("i{identifier}"));
        if kind == 9 {
            return self.world.feed(Vec::new(), vec![key]);
        }
        let moment = self.world.now + 1000 * self.draw(7200) as i64;
        let item = Item { place, moment, delay: None, expected: Some(moment), text: "".into() };
        self.world.feed(vec![(key, item)], Vec::new());
    }
}

fn wanted(number: u64) -> Wanted {
    Wanted {
        consumer: 0,
        identifier: number.to_string().into(),
        termination: LAST,
        topic: Asked { place: stop(&format!("s{number}")), preview: Some(3_600_000), limit: None },
        slack: if number % 2 == 0 { 0 } else { 60_000 },
        is_fetched: number == 4,
    }
}

pub(super) fn played(seed: u64, count: u64) -> String {
    let mut played = Played { world: World::default(), drawn: seed, lines: 5, looked: 0, lost: 0 };
    played.world.start(FIRST);
    for number in 1..=4 {
        played.world.subscribe(CONSUMER, wanted(number));
        played.deliver(false);
    }
    for _ in 0..count {
        played.event();
        played.deliver(true);
    }
    let Played { world, lines, lost, .. } = played;
    let held = &world.consumers[0].held;
    let quiet = held.iter().filter(|(identifier, it)| it.shows.2 > 0 && world.producer.is_quiet(0, identifier, it.shows.0)).count();
    let items: usize = held.values().map(|it| it.view.len()).sum();
    format!("load {seed} {count} lines {lines} packets {} lost {lost} quiet {quiet} items {items}", world.packets.len())
}
