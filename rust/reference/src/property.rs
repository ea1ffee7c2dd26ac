//! One property at a time: refusals 10 and 11.

use crate::bytes::{find_zero, u16_at, u32_at};
use crate::names::{name_bytes_ok, MAX_NAME};
use crate::types::{element_size, is_string};

pub(crate) const PROPERTY_HEADER: usize = 8;
pub(crate) const MAX_PROPERTIES: u32 = 64;

/// A property of a body; all positions are offsets in the body.
#[derive(Clone, Copy, Default)]
pub(crate) struct Property {
    pub start: usize,
    pub type_code: u16,
    pub length: u32,
    pub name: (usize, usize),
    pub data: (usize, usize),
}

impl Property {
    /// The property that starts at `at`, or the number of the refusal.
    #[inline(always)]
    pub fn parse(body: &[u8], at: usize) -> Result<Property, u32> {
        let rest = body.get(at..).unwrap_or(&[]);
        let Some(header) = rest.first_chunk::<PROPERTY_HEADER>() else {
            return Err(10);
        };
        let type_code = u16_at(header, 0);
        let name_size = usize::from(u16_at(header, 2));
        let length = u32_at(header, 4);
        let element = element_size(type_code);
        if element.is_none() && !is_string(type_code) {
            return Err(11);
        }
        if name_size == 0 || name_size > MAX_NAME {
            return Err(11);
        }
        let Some((name, values)) = rest[PROPERTY_HEADER..].split_at_checked(name_size) else {
            return Err(10);
        };
        if !name_bytes_ok(name) {
            return Err(11);
        }
        let size = match element {
            // Cannot wrap: below 2^32 elements of at most 16 bytes.
            Some(element) => u64::from(length) * u64::from(element),
            None if length != 1 => return Err(11),
            None => find_zero(values).ok_or(10u32)? as u64 + 1,
        };
        if size > values.len() as u64 {
            return Err(10);
        }
        let name_start = at + PROPERTY_HEADER;
        let data_start = name_start + name_size;
        Ok(Property {
            start: at,
            type_code,
            length,
            name: (name_start, data_start),
            data: (data_start, data_start + size as usize),
        })
    }

    /// The property that starts at `at`, where one was parsed before.
    #[inline]
    pub fn judged(body: &[u8], at: usize) -> Property {
        let header = &body[at..at + PROPERTY_HEADER];
        let type_code = u16_at(header, 0);
        let length = u32_at(header, 4);
        let name_start = at + PROPERTY_HEADER;
        let data_start = name_start + usize::from(u16_at(header, 2));
        let size = match element_size(type_code) {
            Some(element) => length as usize * element as usize,
            None => find_zero(&body[data_start..]).map_or(0, |zero| zero + 1),
        };
        Property {
            start: at,
            type_code,
            length,
            name: (name_start, data_start),
            data: (data_start, data_start + size),
        }
    }

    pub fn next(&self) -> usize {
        self.data.1
    }

    pub fn name<'a>(&self, body: &'a [u8]) -> &'a [u8] {
        &body[self.name.0..self.name.1]
    }

    pub fn data<'a>(&self, body: &'a [u8]) -> &'a [u8] {
        &body[self.data.0..self.data.1]
    }
}

#[derive(Clone, Copy, Debug, Default, PartialEq, Eq)]
pub struct Step {
    /// 0, 10 or 11; on refusal all else is 0.
    pub number: u32,
    pub next: usize,
    pub name: (usize, usize),
    pub data: (usize, usize),
}

/// Steps past the property that starts at offset `at` of a body.
pub fn step(body: &[u8], at: usize) -> Step {
    match Property::parse(body, at) {
        Ok(property) => Step {
            number: 0,
            next: property.next(),
            name: property.name,
            data: property.data,
        },
        Err(number) => Step {
            number,
            ..Step::default()
        },
    }
}

/// Where the first properties of a body start.
#[derive(Clone, Debug, Default, PartialEq, Eq)]
pub struct Index {
    /// 0, 9, 10 or 11.
    pub number: u32,
    /// After the last property, or where the refused one starts; 0 on 9.
    pub at: usize,
    /// Of the properties stepped past.
    pub starts: Vec<usize>,
}

/// Steps past the first `count` properties of a body. A count over 64 is 9, and none is read.
pub fn index(body: &[u8], count: u32) -> Index {
    let mut index = Index::default();
    if count > MAX_PROPERTIES {
        index.number = 9;
        return index;
    }
    for _ in 0..count {
        match Property::parse(body, index.at) {
            Ok(property) => {
                index.starts.push(index.at);
                index.at = property.next();
            }
            Err(number) => {
                index.number = number;
                break;
            }
        }
    }
    index
}

/// Whether exactly `count` properties, at most 64, fill the body.
pub fn body_exact(body: &[u8], count: u32) -> bool {
    if count > MAX_PROPERTIES {
        return false;
    }
    let mut at = 0;
    for _ in 0..count {
        match Property::parse(body, at) {
            Ok(property) => at = property.next(),
            Err(_) => return false,
        }
    }
    at == body.len()
}
