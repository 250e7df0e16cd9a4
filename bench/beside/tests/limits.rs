//! The large numbers of document 01, each met once: the cap on a byte count,
//! the sum at which channel 35 stops, the passes of one turn.

use beside::call::Call;
use beside::lab::{memory, one_request, put, AT_ONCE, BASE};
use beside::oracle_at_hand;
use beside::world::World;
use kounpheray::{Channel, Device, Field, Tcd, RECORD};
use oracle::{Oracle, Ran, IMAGE};

/// A move of 32 bytes from and to places that stay.
fn still(nbytes: u32) -> Tcd {
    Tcd {
        saddr: BASE,
        attr: 0x0505,
        nbytes,
        daddr: BASE + 33,
        citer: 1,
        biter: 1,
        ..Tcd::default()
    }
}

/// Runs once on both sides, with room for everything.
fn run(what: &str, device: &Device) -> Option<Device> {
    if !oracle_at_hand(what) {
        return None;
    }
    let mut world = World {
        image: device.image(),
        base: BASE,
        window: memory(96),
        staging: vec![1; 1 << 22],
        journal: vec![0; 1 << 27],
        used: 0,
    };
    let mut oracle = Oracle::load(&world.image, BASE, &world.window).expect("in the domain");
    oracle.allow(u64::MAX);
    assert_eq!(oracle.run(0, 0), Ran::Whole);
    assert_eq!(world.call(Call::Run(AT_ONCE)).status(), 0);
    let mut rust = [0; IMAGE];
    oracle.store(&mut rust);
    if let Some(told) = beside::difference::of_images(&world.image, &rust) {
        panic!("{what}:\n{told}");
    }
    assert_eq!(world.window, oracle.window(), "{what}");
    // Places that stay show nothing of how often they were stored to.
    let rows = world.journal[..world.used as usize].chunks(RECORD);
    let told = rows.filter(|row| row[2] == 0).count();
    assert_eq!(told, oracle.stores().len(), "{what}: stores");
    println!("{what}: compared, {} records", world.used / 16);
    Device::from_image(&world.image)
}

#[test]
fn a_byte_count_is_capped_at_2_to_the_22() {
    let channel = Channel::new(2);
    for nbytes in [0, 1 << 30, (1 << 22) + 1, 1 << 22] {
        run("cap on equal sizes", &one_request(channel, &still(nbytes)));
    }
    let unequal = Tcd { attr: 0x0004, ..still(0) };
    run("cap on unequal sizes", &one_request(channel, &unequal));
}

#[test]
fn channel_35_stops_above_2_to_the_20() {
    let tcd = Tcd { citer: 5, biter: 5, ..still(1 << 19) };
    let mut device = Device::fresh();
    let bit = Channel::PACED.bit();
    device.set_descriptor(Channel::PACED, &tcd);
    for field in [Field::Erq, Field::Kick, Field::Standing] {
        put(&mut device, field, bit);
    }
    if let Some(after) = run("sum of channel 35", &device) {
        assert_eq!(after.descriptor(Channel::PACED).citer, 2, "three passes, not two");
    }
}

#[test]
fn a_turn_has_at_most_1_048_577_passes() {
    let channel = Channel::new(9);
    let tcd = Tcd { attr: 0, citer: 0x7FFF, biter: 0x7FFF, ..still(1) };
    let mut device = Device::fresh();
    device.set_descriptor(channel, &tcd);
    for field in [Field::Erq, Field::Kick, Field::Standing] {
        put(&mut device, field, channel.bit());
    }
    if let Some(after) = run("passes of one turn", &device) {
        let made = after.get(Field::Majors(channel)) * 0x7FFF + 0x7FFF
            - u64::from(after.descriptor(channel).citer);
        assert_eq!(made, 1_048_577);
    }
}
