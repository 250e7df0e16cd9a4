//! Two device images or windows that should be equal: where they are not.

use kounpheray::{Channel, Field, Register, TcdField, TCD};

/// Names every field and descriptor part in which two images differ.
pub fn of_images(engine: &[u8], expected: &[u8]) -> Option<String> {
    if engine == expected {
        return None;
    }
    let mut told = String::new();
    for channel in Channel::all() {
        for field in TcdField::ALL {
            let at = TCD * usize::from(channel.number()) + offset(channel, field);
            let end = at + field.width();
            if engine[at..end] != expected[at..end] {
                told += &format!(
                    "  {channel} {field}: engine {}, expected {}\n",
                    hex(&engine[at..end]),
                    hex(&expected[at..end])
                );
            }
        }
    }
    for number in 0..832u16 {
        let at = 2064 + 8 * usize::from(number);
        if engine[at..at + 8] != expected[at..at + 8] {
            let name = Field::from_number(number).map_or("no field".to_string(), |f| f.to_string());
            told += &format!(
                "  {name}: engine {}, expected {}\n",
                hex(&engine[at..at + 8]),
                hex(&expected[at..at + 8])
            );
        }
    }
    if engine[2048..2064] != expected[2048..2064] {
        told += "  the settings between table and fields\n";
    }
    Some(told)
}

/// Names the first address at which two windows differ.
pub fn of_windows(base: u32, engine: &[u8], expected: &[u8]) -> Option<String> {
    if engine == expected {
        return None;
    }
    let at = engine.iter().zip(expected).position(|(one, other)| one != other)?;
    let address = u64::from(base) + at as u64;
    Some(format!(
        "  memory {address:08x}: engine {:02x}, expected {:02x}\n",
        engine[at], expected[at]
    ))
}

/// The offset of a field in its descriptor, by way of its register.
fn offset(channel: Channel, field: TcdField) -> usize {
    let first = Register::from((channel, TcdField::Saddr)).address();
    (Register::from((channel, field)).address() - first) as usize
}

pub fn hex(bytes: &[u8]) -> String {
    bytes.iter().map(|byte| format!("{byte:02x}")).collect()
}
