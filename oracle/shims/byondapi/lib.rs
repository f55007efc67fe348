//! What the game would see. Values are null, a number, a turf, the list of high pressure turfs or a direction; every write and call is
//! noted in order for `take_seen`. A turf's variable reads back as it was written. No turf stands on the list of high pressure turfs yet,
//! since that list isn't lent (document 01, module 9).

use std::cell::RefCell;
use std::collections::HashMap;

pub use byondapi_macros::{bind, init};

#[derive(Clone, Copy, Debug, Default, PartialEq)]
pub enum ByondValue {
    #[default]
    Null,
    Number(f32),
    Turf(u32),
    World,
    Arrow(u32, u32),
}

#[derive(Clone, Copy, Debug)]
pub enum ValueType {
    Turf,
}

/// One thing that the game sees: a variable of a turf set, a proc of a turf called, a turf put on the list, the world asked for.
#[derive(Clone, Copy, Debug, PartialEq)]
pub enum Seen {
    Wrote(u32, &'static str, ByondValue),
    Called(u32, &'static str, [ByondValue; 2]),
    Listed(u32),
    World,
}

#[derive(Debug)]
pub struct Error(&'static str);

impl std::fmt::Display for Error {
    fn fmt(&self, f: &mut std::fmt::Formatter<'_>) -> std::fmt::Result {
        f.write_str(self.0)
    }
}

impl std::error::Error for Error {}

thread_local! {
    static SEEN: RefCell<Vec<Seen>> = const { RefCell::new(Vec::new()) };
    static VARIABLES: RefCell<HashMap<(u32, &'static str), ByondValue>> = RefCell::new(HashMap::new());
}

fn note(seen: Seen) {
    SEEN.with(|s| s.borrow_mut().push(seen));
}

/// What was seen since the last call, in order; the turfs' variables are forgotten.
pub fn take_seen() -> Vec<Seen> {
    VARIABLES.with(|v| v.borrow_mut().clear());
    SEEN.with(|s| s.take())
}

type Name = &'static str;

impl ByondValue {
    pub fn new_ref(_kind: ValueType, id: u32) -> Self {
        Self::Turf(id)
    }
    pub fn new_global_ref() -> Self {
        note(Seen::World);
        Self::World
    }
    pub fn null() -> Self {
        Self::Null
    }
    pub fn is_null(&self) -> bool {
        *self == Self::Null
    }
    pub fn is_list(&self) -> bool {
        false
    }
    pub fn get_ref(&self) -> Result<u32, Error> {
        if let Self::Turf(id) = self { Ok(*id) } else { Err(Error("not a turf")) }
    }
    pub fn get_number(&self) -> Result<f32, Error> {
        if let Self::Number(x) = self { Ok(*x) } else { Err(Error("not a number")) }
    }
    pub fn read_var_id(&self, name: Name) -> Result<Self, Error> {
        match self {
            Self::World => Ok(Self::World),
            Self::Turf(id) => Ok(VARIABLES.with(|v| v.borrow().get(&(*id, name)).copied().unwrap_or_default())),
            _ => Err(Error("no variables")),
        }
    }
    pub fn read_number_id(&self, name: Name) -> Result<f32, Error> {
        self.read_var_id(name)?.get_number()
    }
    pub fn read_string_id(&self, _name: Name) -> Result<String, Error> {
        Err(Error("no strings"))
    }
    pub fn read_list_index<K>(&self, _key: K) -> Result<Self, Error> {
        Err(Error("no list"))
    }
    pub fn iter(&self) -> Result<std::iter::Empty<(Self, Self)>, Error> {
        Err(Error("no list"))
    }
    pub fn write_var_id(&mut self, name: Name, value: &Self) -> Result<(), Error> {
        let id = self.get_ref()?;
        VARIABLES.with(|v| v.borrow_mut().insert((id, name), *value));
        note(Seen::Wrote(id, name, *value));
        Ok(())
    }
    pub fn push_list(&mut self, value: Self) -> Result<(), Error> {
        note(Seen::Listed(value.get_ref()?));
        Ok(())
    }
    pub fn call_id(&self, name: Name, words: &[Self]) -> Result<Self, Error> {
        let word = |i: usize| words.get(i).copied().unwrap_or_default();
        note(Seen::Called(self.get_ref()?, name, [word(0), word(1)]));
        Ok(Self::Null)
    }
}

impl From<f32> for ByondValue {
    fn from(x: f32) -> Self {
        Self::Number(x)
    }
}

impl From<bool> for ByondValue {
    fn from(x: bool) -> Self {
        Self::Number(if x { 1.0 } else { 0.0 })
    }
}

impl TryFrom<&[ByondValue]> for ByondValue {
    type Error = Error;
    fn try_from(_list: &[ByondValue]) -> Result<Self, Error> {
        Err(Error("no lists"))
    }
}

pub mod map {
    pub fn byond_locatein(_value: &super::ByondValue, _list: &super::ByondValue) -> Result<super::ByondValue, super::Error> {
        Ok(super::ByondValue::Null)
    }
}

pub mod global_call {
    use super::{ByondValue, Error};

    /// `get_dir_multiz` of two turfs: the arrow between them.
    pub fn call_global_id(name: &'static str, words: &[ByondValue]) -> Result<ByondValue, Error> {
        match (name, words) {
            ("get_dir_multiz", [from, to]) => Ok(ByondValue::Arrow(from.get_ref()?, to.get_ref()?)),
            _ => Err(Error("no such proc")),
        }
    }
}

#[macro_export]
macro_rules! byond_string {
    ($name:literal) => {
        $name
    };
}

pub mod prelude {
    pub use crate::{ByondValue, ValueType, byond_string};
}
