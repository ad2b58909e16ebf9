//! JSON values, and their compact text.
use super::memory::{AllocError, Global, Vec};
use super::texts::itoa;

pub enum Value {
    Number(u64),
    String(Vec<u8>),
    Array(Vec<Value>),
    /// The crates give the members in the order of their keys.
    Object(Vec<(&'static str, Value)>),
}

/// An object of members, each of a text and an expression.
macro_rules! json {
    (in $alloc:expr; { $($key:literal : $value:expr),* $(,)? }) => {
        $crate::kit::serde_json::object($alloc, [$(($key, $crate::kit::serde_json::ToValue::to_value($value, $alloc))),*])
    };
}
pub(crate) use json;

pub trait ToValue {
    fn to_value(self, alloc: Global) -> Result<Value, AllocError>;
}

impl ToValue for Value {
    fn to_value(self, _: Global) -> Result<Value, AllocError> {
        Ok(self)
    }
}

impl ToValue for u64 {
    fn to_value(self, _: Global) -> Result<Value, AllocError> {
        Ok(Value::Number(self))
    }
}

impl ToValue for u32 {
    fn to_value(self, _: Global) -> Result<Value, AllocError> {
        Ok(Value::Number(u64::from(self)))
    }
}

impl ToValue for &str {
    fn to_value(self, alloc: Global) -> Result<Value, AllocError> {
        Value::try_from_str(alloc, self)
    }
}

pub fn object<const N: usize>(alloc: Global, members: [(&'static str, Result<Value, AllocError>); N]) -> Result<Value, AllocError> {
    let mut all = Vec::with_capacity(alloc, N)?;
    for (key, value) in members {
        all.push((key, value?))?;
    }
    Ok(Value::Object(all))
}

/// Puts values one behind another, with commas between them.
fn put_each<T>(out: &mut Vec<u8>, brackets: &[u8; 2], items: &Vec<T>, put: impl Fn(&mut Vec<u8>, &T) -> Result<(), AllocError>) -> Result<(), AllocError> {
    out.push(brackets[0])?;
    for (index, item) in items.iter().enumerate() {
        if index > 0 {
            out.push(b',')?;
        }
        put(out, item)?;
    }
    Ok(out.push(brackets[1])?)
}

fn put_text(out: &mut Vec<u8>, text: &[u8]) -> Result<(), AllocError> {
    out.push(b'"')?;
    for byte in text {
        match byte {
            b'"' | b'\\' => out.extend_from_slice(&[b'\\', *byte])?,
            0..32 => {
                let short = b"btn?fr".get(usize::from(byte.wrapping_sub(8))).filter(|_| *byte != 11);
                match short {
                    Some(letter) => out.extend_from_slice(&[b'\\', *letter])?,
                    None => {
                        let digit = |number: u8| b"0123456789abcdef"[usize::from(number)];
                        out.extend_from_slice(&[b'\\', b'u', b'0', b'0', digit(byte / 16), digit(byte % 16)])?
                    }
                }
            }
            _ => out.push(*byte)?,
        }
    }
    Ok(out.push(b'"')?)
}

impl Value {
    pub fn try_from_str(alloc: Global, text: &str) -> Result<Value, AllocError> {
        Ok(Value::String(Vec::from_slice(alloc, text.as_bytes())?))
    }

    /// The compact text.
    pub fn to_vec_in(&self, alloc: Global) -> Result<Vec<u8>, AllocError> {
        let mut out = Vec::new(alloc);
        self.put(&mut out)?;
        Ok(out)
    }

    fn put(&self, out: &mut Vec<u8>) -> Result<(), AllocError> {
        match self {
            Value::Number(number) => out.extend_from_slice(itoa::Buffer::new().format(*number).as_bytes()),
            Value::String(text) => put_text(out, text),
            Value::Array(values) => put_each(out, b"[]", values, |out, value| value.put(out)),
            Value::Object(members) => put_each(out, b"{}", members, |out, (key, value)| {
                put_text(out, key.as_bytes())?;
                out.push(b':')?;
                value.put(out)
            }),
        }
    }
}
