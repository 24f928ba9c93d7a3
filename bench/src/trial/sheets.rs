//! Requests with sheets: found ones, ones that were changed, and made up ones.

use crate::certificate::MOST_NAMES;
use crate::gate::Gate;
use crate::random::Random;
use crate::request::{Asked, Head};
use crate::schedule::{Line, Schedule};
use crate::trial::damage::damage;
use crate::trial::world::World;

/// A house and right, mostly known ones.
pub fn asked(random: &mut Random, world: &World, gate: &Gate) -> Asked {
    let house = match random.percent(3) {
        true => random.below(1024) as u16,
        false => random.pick(&world.houses),
    };
    let right = match random.percent(5) {
        true => random.below(64) as u8,
        false => random.pick(&world.rights),
    };
    Asked { owner: gate.owner, house, right }
}

/// A request to the gate as it is.
pub fn request(random: &mut Random, world: &World, gate: &Gate) -> Vec<u8> {
    let mut asked = asked(random, world, gate);
    let mut lines = None;
    for _ in 0..4 {
        lines = Schedule::Fast.find(&gate.registry, asked, gate.day);
        if lines.as_ref().is_some_and(|lines| !lines.is_empty()) {
            break;
        }
        asked.house = random.pick(&world.houses);
    }
    let mut lines = lines.unwrap_or_default();
    if random.percent(50) {
        for _ in 0..random.from(1, 3) {
            change(random, world, gate, &mut lines);
        }
    }
    if random.percent(10) {
        asked.house = random.pick(&world.houses);
    }
    if random.percent(5) {
        asked.right = random.pick(&world.rights);
    }
    let mut bytes = write(gate, &asked, &lines);
    if random.percent(15) {
        damage(random, &mut bytes);
    }
    bytes
}

/// As `schedule::write`, but a line may have a number that no certificate has.
fn write(gate: &Gate, asked: &Asked, lines: &[Line]) -> Vec<u8> {
    let mut out = Vec::new();
    Head { house: asked.house, right: asked.right, lines: lines.len() as u32 }.write(&mut out);
    for line in lines {
        let known = gate.registry.certificates().get(usize::from(line.certificate));
        let count = known.map_or(1, |certificate| certificate.subject.names().len());
        out.extend(line.certificate.to_be_bytes());
        out.extend(line.steps[..count].iter().flat_map(|step| step.to_be_bytes()));
    }
    out
}

fn change(random: &mut Random, world: &World, gate: &Gate, lines: &mut Vec<Line>) {
    if lines.is_empty() || random.percent(15) {
        let at = random.below(lines.len() + 1);
        return lines.insert(at, made_up(random, world, gate));
    }
    let at = random.below(lines.len());
    let other = random.below(lines.len());
    match random.below(6) {
        0 => lines.swap(at, other),
        1 => drop(lines.remove(at)),
        2 => lines.insert(other, lines[at]),
        3 => lines[at].steps[random.below(MOST_NAMES)] = random.pick(&world.houses),
        4 => lines[at].certificate = made_up(random, world, gate).certificate,
        _ => lines[at].steps[random.below(2)] = random.pick(&[1023, 1024, 65535]),
    }
}

fn made_up(random: &mut Random, world: &World, gate: &Gate) -> Line {
    let certificate = random.below(gate.registry.certificates().len() + 1) as u16;
    Line { certificate, steps: [(); MOST_NAMES].map(|_| random.pick(&world.houses)) }
}
