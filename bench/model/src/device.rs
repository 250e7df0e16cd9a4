//! The device: its table, and its fields by document 01's numbers.

/// The length of an image, and where its parts begin.
const IMAGE: usize = 8720;
const IGNORE_MASKS: usize = 2048;
const MODE: usize = 2049;
const FIELDS: usize = 2064;

/// The numbers of fields; where there are several, of the first.
pub(crate) const CR: usize = 0;
pub(crate) const ERQ: usize = 1;
pub(crate) const EEI: usize = 2;
pub(crate) const INT: usize = 3;
pub(crate) const ERR: usize = 4;
pub(crate) const KICK: usize = 5;
pub(crate) const DEFERRED: usize = 6;
pub(crate) const DEADLINE: usize = 7;
pub(crate) const LEVEL: usize = 8;
pub(crate) const STANDING: usize = 9;
pub(crate) const IMR: usize = 16;
pub(crate) const FRC: usize = 17;
pub(crate) const LINES: usize = 18;
pub(crate) const ICONFIG: usize = 19;
pub(crate) const BUSY: usize = 64;
pub(crate) const MAJORS: usize = 128;
pub(crate) const PENDING: usize = 192;
pub(crate) const SOURCE: usize = 256;
pub(crate) const TAKEN: usize = 512;
pub(crate) const PRIORITY: usize = 768;

/// One more than the last number.
pub(crate) const NUMBERS: usize = 832;

#[derive(Clone)]
pub(crate) struct Device {
    pub(crate) table: Vec<u8>,
    pub(crate) fields: Vec<u64>,
    pub(crate) ignore_masks: bool,
    /// Whether channels are served as the chip does it.
    pub(crate) chip: bool,
}

pub(crate) fn bit(word: u64, n: usize) -> bool {
    word >> n & 1 == 1
}

/// How many bits a field has in a mode; none where the number names no field.
pub(crate) fn bits(chip: bool, number: usize) -> Option<u32> {
    match number {
        CR | 192..=255 => Some(32),
        LEVEL | 256..=447 => Some(8),
        19 | 23 | 27 => Some(16),
        1..=9 | 16..=27 | 64..=191 | 576..=767 => Some(64),
        768..=831 if chip => Some(6),
        _ => None,
    }
}

pub(crate) fn fits(value: u64, bits: u32) -> bool {
    bits == 64 || value >> bits == 0
}

pub(crate) fn big_endian(bytes: &[u8]) -> u64 {
    bytes.iter().fold(0, |value, byte| value << 8 | u64::from(*byte))
}

impl Device {
    /// A device in the old mode that is zero throughout.
    pub(crate) fn blank() -> Device {
        let (table, fields) = (vec![0; IGNORE_MASKS], vec![0; NUMBERS]);
        Device { table, fields, ignore_masks: false, chip: false }
    }

    /// The device of an image; none where it is no device. Of a priority the
    /// image may hold eight bits, of which the low six count.
    pub(crate) fn from_image(image: &[u8]) -> Option<Device> {
        if image.len() != IMAGE || image[IGNORE_MASKS] > 1 || image[MODE] > 1 {
            return None;
        }
        if image[MODE + 1..FIELDS].iter().any(|&byte| byte != 0) {
            return None;
        }
        let chip = image[MODE] == 1;
        let fields: Vec<u64> = image[FIELDS..].chunks(8).map(big_endian).collect();
        let sound = |(number, value): (usize, &u64)| match bits(chip, number) {
            None => *value == 0,
            Some(_) if number >= PRIORITY => fits(*value, 8),
            Some(bits) => fits(*value, bits),
        };
        if !fields.iter().enumerate().all(sound) {
            return None;
        }
        let cut = |(number, value)| if number >= PRIORITY { value % 64 } else { value };
        Some(Device {
            table: image[..IGNORE_MASKS].to_vec(),
            fields: fields.into_iter().enumerate().map(cut).collect(),
            ignore_masks: image[IGNORE_MASKS] == 1,
            chip,
        })
    }

    pub(crate) fn image(&self) -> Vec<u8> {
        let mut image = self.table.clone();
        image.push(u8::from(self.ignore_masks));
        image.push(u8::from(self.chip));
        image.resize(FIELDS, 0);
        image.extend(self.fields.iter().flat_map(|value| value.to_be_bytes()));
        image
    }

    /// The channels that request, as a mask.
    pub(crate) fn requesting(&self) -> u64 {
        let counted = (0..64).filter(|channel| self.fields[PENDING + channel] > 0);
        counted.fold(self.fields[STANDING], |mask, channel| mask | 1 << channel)
    }

    /// Whether a channel has both ERQ and a request.
    pub(crate) fn asks(&self, channel: usize) -> bool {
        bit(self.fields[ERQ] & self.requesting(), channel)
    }

    /// Whether a channel's descriptor has START.
    pub(crate) fn started(&self, channel: usize) -> bool {
        self.table[32 * channel + 0x1F] & 1 != 0
    }
}
