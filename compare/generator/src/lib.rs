//! From a seed to a job: proofs built forward so that they hold, then damaged.

mod case;
mod compact;
mod conditions;
mod count_facts;
mod counting;
mod counts;
mod damage;
pub mod dirt;
mod evaluate;
pub mod extremes;
mod flaws;
mod globals;
mod instances;
mod malformed;
mod names;
mod nested;
mod random;
mod roles;
pub mod room;
mod rules;
mod setting;
pub mod slots;
mod steps;
mod world;

use job::modes::{PLAIN, STRICT};
use job::{Table, Tables};

pub use case::{Case, Outcome};
pub use counts::EXTREMES;
pub use random::Random;
pub use setting::OTHER_MODES;

use setting::Setting;
use world::World;

/// Tell the random numbers of a seed's counting case and of its case with conditions from those of its
/// first one.
const COUNTING: u64 = 0x636f_756e_7469_6e67;
const CONDITIONS: u64 = 0x636f_6e64_6974_696f;
/// Tells the random numbers of a case's index from those of its job.
const INDEX: u64 = 0x696e_6465_785f_3031;

/// The case of a seed; the same on every machine.
pub fn job(seed: u64) -> Case {
    let mut random = Random::new(seed);
    let random = &mut random;
    let case = match random.below(1_000) {
        0..=2 => extreme(extremes::at_limit(random), PLAIN, random),
        3..=5 => extreme(extremes::deep_or_wide(random), PLAIN, random),
        chance => in_a_world(chance, random.clone(), Setting::default()),
    };
    filled(case, random, seed)
}

/// A case of a seed with primitives that compute with integers, of kinds 4 to 8; the same on every
/// machine.
pub fn counting_job(seed: u64) -> Case {
    let mut random = Random::new(seed ^ COUNTING);
    let random = &mut random;
    let case = match random.below(1_000) {
        0..=5 => extreme(extremes::deep_counts(random), PLAIN, random),
        chance => in_a_world(chance, random.clone(), Setting::counting()),
    };
    filled(case, random, seed ^ COUNTING)
}

/// A case of a seed whose rules have bare container conditions, mostly in strict mode; the same on every
/// machine.
pub fn condition_job(seed: u64) -> Case {
    let mut random = Random::new(seed ^ CONDITIONS);
    let random = &mut random;
    let setting = Setting::with_conditions(random);
    let case = match random.below(1_000) {
        0..=5 => extreme(extremes::deep_conditions(random), setting.mode, random),
        chance => in_a_world(chance, random.clone(), setting),
    };
    filled(case, random, seed ^ CONDITIONS)
}

/// The case with what its lent words hold before, and with an index.
fn filled(mut case: Case, random: &mut Random, seed: u64) -> Case {
    case.fill = random.word() as u32;
    slots::with_index(case, &mut Random::new(seed ^ INDEX))
}

/// A case by one of the ways, as the chance says; of 1,000 chances the first six are left out.
fn in_a_world(chance: usize, random: Random, setting: Setting) -> Case {
    match chance {
        6..=15 => nested_job(random, setting),
        16..=104 => malformed_job(random, setting),
        105..=154 => damaged_words(random, setting),
        155..=349 => damaged_cells(random, setting),
        350..=749 => aimed(random, setting),
        750..=784 => aimed_in_globals(random, setting),
        _ => holding(random, setting),
    }
}

/// A world after some steps that hold.
fn forward(mut world: World) -> World {
    let steps = match world.random.below(20) {
        0 => world.random.between(12, 40),
        _ => world.random.between(1, 9),
    };
    for _ in 0..steps {
        world.any_step();
    }
    world
}

/// A job all of whose proofs hold.
pub fn holding_job(seed: u64) -> Case {
    all_hold(Random::new(seed), Setting::default())
}

/// A job with primitives of kinds 4 to 8, all of whose proofs hold.
pub fn holding_counting_job(seed: u64) -> Case {
    all_hold(Random::new(seed), Setting::counting())
}

/// A job with bare container conditions, all of whose proofs hold in strict mode.
pub fn holding_condition_job(seed: u64) -> Case {
    let mut random = Random::new(seed);
    let setting = Setting {
        mode: STRICT,
        ..Setting::with_conditions(&mut random)
    };
    all_hold(random, setting)
}

fn all_hold(random: Random, setting: Setting) -> Case {
    let world = forward(World::start(random, setting));
    let asked = world.proof_count() - 1;
    let (tables, _) = finished(world);
    room::ample(tables.words(), asked).in_mode(setting.mode)
}

/// The job's tables with terms left out, and the random numbers that follow.
fn finished(world: World) -> (Tables, Random) {
    let mut random = world.random;
    let tables = match random.once_in(5) {
        true => world.tables,
        false => compact::compact(&world.tables, &mut random),
    };
    (tables, random)
}

/// Some room for the job.
fn with_room(words: Vec<u32>, asked: u32, mode: u32, random: &mut Random) -> Case {
    let case = match random.below(10) {
        0..=2 => room::chosen(words, asked, mode, random),
        3 if random.once_in(3) => room::refused(words, asked, random),
        _ => room::ample(words, asked),
    };
    case.in_mode(mode)
}

fn extreme(tables: Tables, mode: u32, random: &mut Random) -> Case {
    let asked = tables.count(Table::Proofs).saturating_sub(1);
    let asked = match random.once_in(8) {
        true => 0,
        false => asked,
    };
    let words = tables.words();
    match random.once_in(3) {
        true => room::chosen(words, asked, mode, random),
        false => room::ample(words, asked).in_mode(mode),
    }
}

fn nested_job(mut random: Random, setting: Setting) -> Case {
    let length = match random.once_in(10) {
        true => random.between(20, 200),
        false => random.between(1, 6),
    };
    let tables = nested::nested(&mut random, length, setting);
    let asked = tables.count(Table::Proofs) - 1;
    with_room(tables.words(), asked, setting.mode, &mut random)
}

fn holding(random: Random, setting: Setting) -> Case {
    let world = forward(World::start(random, setting));
    let last = world.proof_count() - 1;
    let (tables, mut random) = finished(world);
    let asked = match random.once_in(6) {
        true => random.below(last as usize + 1) as u32,
        false => last,
    };
    with_room(tables.words(), asked, setting.mode, &mut random)
}

/// A job with a flaw, sometimes below further steps.
fn aimed(random: Random, setting: Setting) -> Case {
    let mut world = forward(World::start(random, setting));
    let number = world.any_aim();
    let mut flawed = world.flawed_step(number);
    if world.random.once_in(8) {
        let other = world.any_aim();
        let second = world.flawed_step(other);
        flawed = world.join(flawed, second);
    }
    for _ in 0..world.random.pick(&[0, 0, 0, 1, 2]) {
        flawed = world.bury(flawed);
    }
    let (tables, mut random) = finished(world);
    with_room(tables.words(), flawed.proof, setting.mode, &mut random)
}

fn aimed_in_globals(random: Random, setting: Setting) -> Case {
    let mut world = World::start_with_flaw(random, setting);
    world.any_step();
    let asked = world.proof_count() - 1;
    let (tables, mut random) = finished(world);
    with_room(tables.words(), asked, setting.mode, &mut random)
}

fn damaged_cells(random: Random, setting: Setting) -> Case {
    let world = forward(World::start(random, setting));
    let asked = world.proof_count() - 1;
    let (mut tables, mut random) = finished(world);
    let primitive_kind = if setting.counting { 9 } else { 3 };
    for _ in 0..random.pick(&[1, 1, 1, 2, 3, 6]) {
        damage::damage_cell(&mut tables, primitive_kind, &mut random);
    }
    with_room(tables.words(), asked, setting.mode, &mut random)
}

fn damaged_words(random: Random, setting: Setting) -> Case {
    let world = forward(World::start(random, setting));
    let asked = world.proof_count() - 1;
    let (tables, mut random) = finished(world);
    let mut words = tables.words();
    for _ in 0..random.pick(&[1, 1, 2, 4]) {
        damage::damage_word(&mut words, &mut random);
    }
    with_room(words, asked, setting.mode, &mut random)
}

fn malformed_job(random: Random, setting: Setting) -> Case {
    let world = forward(World::start(random, setting));
    let asked = world.proof_count() - 1;
    let (tables, mut random) = finished(world);
    let number = random.pick(&malformed::AIMED_BY_FORM);
    let (words, asked) =
        malformed::malformed(tables, asked, (number, setting.counting), &mut random);
    with_room(words, asked, setting.mode, &mut random)
}
