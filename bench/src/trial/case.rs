//! A whole case: what a gate takes, and what finders are asked.

use crate::delivery::receive;
use crate::gate::Gate;
use crate::random::Random;
use crate::request::Head;
use crate::trial::backbone::backbone;
use crate::trial::damage::{damage, more_names};
use crate::trial::sheets;
use crate::trial::world::{Size, World};

/// Two pieces of the proved programs: events that go across pieces stand round this place.
const HELD: usize = 2 << 14;

pub struct Case {
    pub size: Size,
    pub owner: u16,
    /// Deliveries of events, with requests among them.
    pub deliveries: Vec<Vec<u8>>,
    /// Requests without lines.
    pub asks: Vec<Vec<u8>>,
}

impl Case {
    pub fn new(seed: u64) -> Case {
        let mut random = Random::new(seed);
        let size = match random.below(200) {
            0..=109 => Size::Tiny,
            110..=179 => Size::Small,
            180..=198 => Size::Medium,
            _ => Size::Long,
        };
        Case::of_size(&mut random, size)
    }

    pub fn of_size(random: &mut Random, size: Size) -> Case {
        let world = World::new(random, size);
        let mut gate = Gate::new(world.owner);
        let mut deliveries = Vec::new();
        let damaged = random.percent(25);
        if random.percent(35) {
            let length = random.from(2, world.longest_backbone());
            let mut events = Vec::new();
            for certificate in backbone(random, &world, length) {
                certificate.write(&mut events);
            }
            take(&mut gate, &events);
            deliveries.push(events);
        }
        for _ in 0..random.from(1, 3) {
            let mut events = events(random, &world, &gate);
            if damaged && random.percent(50) {
                damage(random, &mut events);
            }
            take(&mut gate, &events);
            deliveries.push(events);
            for _ in 0..random.below(4) {
                deliveries.push(sheets::request(random, &world, &gate));
            }
        }
        let asks = (0..random.from(1, 2)).map(|_| ask(random, &world, &gate)).collect();
        Case { size, owner: world.owner, deliveries, asks }
    }
}

fn take(gate: &mut Gate, events: &[u8]) {
    receive(gate, events, |_| Ok(())).expect("reading from memory does not fail");
}

/// A delivery of events; now and then some days pass, and now and then it is empty. In about one
/// case of two hundred so many refused ones stand in front that events go across pieces.
fn events(random: &mut Random, world: &World, gate: &Gate) -> Vec<u8> {
    let mut out = Vec::new();
    if random.below(400) == 0 {
        let front = random.from(HELD - 1000, 3 * HELD);
        while out.len() < front {
            let certificate = world.certificate(random);
            more_names(random, &certificate, &mut out);
        }
    }
    let mut count = gate.registry.certificates().len();
    for _ in 0..world.events(random) {
        let before = out.len();
        world.write_event(random, count, &mut out);
        count += usize::from(out[before] == 1);
    }
    out
}

fn ask(random: &mut Random, world: &World, gate: &Gate) -> Vec<u8> {
    let asked = sheets::asked(random, world, gate);
    let mut bytes = Vec::new();
    Head { house: asked.house, right: asked.right, lines: 0 }.write(&mut bytes);
    if random.percent(5) {
        damage(random, &mut bytes);
    }
    bytes
}
