//! What there is instead of an oracle where the sources are missing: a type
//! of which no value can be made.

use crate::{Outside, Ran};
use std::convert::Infallible;

#[derive(Debug)]
pub struct Oracle {
    never: Infallible,
}

impl Oracle {
    pub fn load(_image: &[u8], _base: u32, _window: &[u8]) -> Result<Oracle, Outside> {
        Err(Outside::NoSources)
    }

    pub fn reload(&mut self, _image: &[u8], _base: u32, _window: &[u8]) -> Result<(), Outside> {
        match self.never {}
    }

    pub fn settle(_image: &mut [u8]) {}

    pub fn read(&mut self, _address: u32, _size: u32) -> Option<u32> {
        match self.never {}
    }

    pub fn write(&mut self, _address: u32, _size: u32, _value: u32) -> bool {
        match self.never {}
    }

    pub fn inputs(&mut self, _standing: u64, _lines: [u64; 3]) -> Result<(), Outside> {
        match self.never {}
    }

    pub fn pending(&mut self, _channel: usize, _count: u32) -> Result<(), Outside> {
        match self.never {}
    }

    pub fn run(&mut self, _now: u64, _pace: u64) -> Ran {
        match self.never {}
    }

    pub fn service(&mut self, _now: u64, _pace: u64) -> Ran {
        match self.never {}
    }

    pub fn acknowledge(&mut self, _ipl: u8) -> Option<(u8, u8)> {
        match self.never {}
    }

    pub fn store(&self, _image: &mut [u8]) {
        match self.never {}
    }

    #[cfg(feature = "watch")]
    pub fn allow(&mut self, _accesses: u64) {
        match self.never {}
    }

    #[cfg(feature = "watch")]
    pub fn stores(&self) -> &[crate::Store] {
        match self.never {}
    }

    #[cfg(feature = "watch")]
    pub fn accesses(&self) -> &[crate::Access] {
        match self.never {}
    }

    pub fn base(&self) -> u32 {
        match self.never {}
    }

    pub fn run_many(&mut self, _runs: u64, _now: u64, _pace: u64) {
        match self.never {}
    }

    pub fn window(&self) -> &[u8] {
        match self.never {}
    }
}
