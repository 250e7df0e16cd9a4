//! Every offset and size of the four blocks, every command byte, every source.

use beside::call::Call;
use beside::lab::{fresh, put, settled, Lab};
use beside::oracle_at_hand;
use beside::random::Random;
use kounpheray::{Channel, Controller, Device, Field, Mode, Source};

const BLOCKS: [u32; 4] = [0xFC04_4000, 0xFC04_8000, 0xFC04_C000, 0xFC05_0000];

/// A device in which hardly a bit is as it was in a fresh one. Its requests
/// stay where equality is claimed.
fn rich(seed: u64) -> Device {
    let mut random = Random::new(seed);
    let mut image = Device::fresh().image();
    random.fill(&mut image[..2048]);
    let mut device = Device::from_image(&image).expect("any table will do");
    for number in 0..768 {
        let Some(field) = Field::from_number(number) else { continue };
        if !matches!(field, Field::Pending(_) | Field::Standing) {
            put(&mut device, field, random.word() >> (64 - field.bits()));
        }
    }
    for channel in [1, 17, 58] {
        put(&mut device, Field::Pending(Channel::new(channel)), random.below(1 << 32));
    }
    put(&mut device, Field::Standing, 0xFEDC_BA98_7654_3210 & !(1 << 1 | 1 << 17 | 1 << 58));
    settled(&device)
}

fn lab(what: &str, cases: impl FnOnce(&mut Lab)) {
    if oracle_at_hand(what) {
        let mut lab = Lab::new();
        cases(&mut lab);
        println!("{what}, {}", lab.pair.tally);
    }
}

/// Goes on with an empty journal.
fn forget(lab: &mut Lab) {
    lab.pair.world.used = 0;
}

#[test]
fn every_offset_is_read() {
    lab("reads at every offset", |lab| {
        lab.begin(&rich(1));
        for block in BLOCKS {
            for offset in 0..0x4000 {
                for size in [1, 2, 4] {
                    lab.call(Call::Read { address: block + offset, size });
                }
            }
        }
    });
}

#[test]
fn every_offset_is_written() {
    lab("writes at every offset", |lab| {
        let mut random = Random::new(2);
        lab.begin(&rich(2));
        for block in BLOCKS {
            for offset in 0..0x4000 {
                for size in [1, 2, 4] {
                    let value = random.word() as u32;
                    lab.call(Call::Write { address: block + offset, size, value });
                    forget(lab);
                }
            }
        }
    });
}

#[test]
fn every_command_byte() {
    lab("command bytes", |lab| {
        for seed in 3..6 {
            let device = rich(seed);
            for block in BLOCKS {
                for offset in 0x18..0x20 {
                    for value in 0..=255 {
                        lab.begin(&device);
                        lab.call(Call::Write { address: block + offset, size: 1, value });
                    }
                }
            }
        }
    });
}

#[test]
fn every_command_word() {
    lab("command words", |lab| {
        let mut random = Random::new(7);
        let device = rich(7);
        for _ in 0..4000 {
            for offset in [0x18, 0x1C] {
                let value = random.word() as u32 & random.pick(&[u32::MAX, 0xBFBF_BFBF]);
                lab.begin(&device);
                lab.call(Call::Write { address: BLOCKS[0] + offset, size: 4, value });
            }
        }
    });
}

#[test]
fn start_written_anywhere_in_a_descriptor() {
    lab("descriptor writes that cover START", |lab| {
        for offset in 0..0x800 {
            for size in [1, 2, 4] {
                for value in [0, 1, 0x100, 0x1_0000, 0x100_0000, 0x0101_0101] {
                    lab.begin(&Device::fresh());
                    lab.call(Call::Write { address: BLOCKS[0] + 0x1000 + offset, size, value });
                }
            }
        }
    });
}

#[test]
fn every_source_is_acknowledged() {
    lab("acknowledge of every source", |lab| {
        for controller in Controller::ALL {
            for source in 0..64 {
                for level in 0..9 {
                    let mut device = Device::fresh();
                    put(&mut device, Field::Frc(controller), 1 << source);
                    let field = Field::SourceLevel(controller, Source::new(source));
                    put(&mut device, field, level | 0xA8);
                    let device = settled(&device);
                    for ipl in [0, 1, 2, 3, 4, 5, 6, 7, 8, 255] {
                        lab.begin(&device);
                        lab.call(Call::Acknowledge { ipl });
                    }
                }
            }
        }
    });
}

#[test]
fn the_highest_is_acknowledged() {
    lab("acknowledge among many", |lab| {
        let mut random = Random::new(8);
        for n in 0..400 {
            let mut device = if n % 5 == 0 { Device::ignoring_masks() } else { Device::fresh() };
            for controller in Controller::ALL {
                let few = random.word() & random.word() & random.word();
                put(&mut device, Field::Frc(controller), few & random.word());
                put(&mut device, Field::Lines(controller), few);
                put(&mut device, Field::Imr(controller), random.word());
                for source in 0..64 {
                    let field = Field::SourceLevel(controller, Source::new(source));
                    put(&mut device, field, random.below(4) + random.below(2) * 4);
                }
            }
            lab.begin(&settled(&device));
            for ipl in [0, 3, 6, 7, 255, 2] {
                lab.call(Call::Acknowledge { ipl });
            }
        }
    });
}

#[test]
fn every_interrupt_drives_its_line() {
    lab("lines and level from INT", |lab| {
        for ignoring in [false, true] {
            for channel in Channel::all() {
                let mut device = if ignoring { Device::ignoring_masks() } else { Device::fresh() };
                for controller in Controller::ALL {
                    put(&mut device, Field::Imr(controller), channel.bit().rotate_left(8));
                    for source in 0..64 {
                        let field = Field::SourceLevel(controller, Source::new(source));
                        put(&mut device, field, u64::from(source) % 8);
                    }
                }
                put(&mut device, Field::Int, channel.bit());
                let device = settled(&device);
                for lines in [[0; 3], [u64::MAX; 3], [1 << 7, 1 << 48, 1 << 1]] {
                    lab.begin(&device);
                    lab.call(Call::Inputs { standing: 0, lines });
                    lab.call(Call::Acknowledge { ipl: 0 });
                    let clear = u32::from(channel.number());
                    lab.call(Call::Write { address: BLOCKS[0] + 0x1C, size: 1, value: clear });
                }
            }
        }
    });
}

#[test]
fn every_line_bit_is_an_input() {
    lab("inputs", |lab| {
        for controller in 0..3 {
            for bit in 0..64 {
                let mut device = Device::fresh();
                put(&mut device, Field::Erq, 0xF0F0_F0F0_F0F0_F0F0);
                put(&mut device, Field::Int, 0x0F0F_F0F0_00FF_FF00);
                put(&mut device, Field::Pending(Channel::new(7)), 1);
                let mut lines = [0; 3];
                lines[controller] = 1 << bit;
                lab.begin(&settled(&device));
                lab.call(Call::Inputs { standing: 1 << bit & !(1 << 7), lines });
                lab.call(Call::Inputs { standing: 0, lines: lines.map(|line| !line) });
            }
        }
    });
}

#[test]
fn a_fresh_device_is_as_the_documents_say() {
    for mode in Mode::ALL {
        let device = fresh(mode);
        for field in (0..832).filter_map(Field::from_number) {
            let value = match field {
                Field::Imr(_) | Field::Deadline => u64::MAX,
                Field::Priority(channel) if mode == Mode::Chip => channel.number().into(),
                _ => 0,
            };
            assert_eq!(device.get(field), value, "{field}");
        }
        assert!(device.table().iter().all(|&byte| byte == 0));
        let settings = &device.image()[2048..2064];
        assert_eq!(settings[..2], [0, mode.number()]);
        assert_eq!(settings[2..], [0; 14]);
    }
    assert_eq!(Device::ignoring_masks().image()[2048..2050], [1, 0]);
}
