//! Stands in for the crate `swf`, which is not to be had. The encoder uses of it `SwfWriteExt` and `SwfStr`: these are
//! ours, so that numbers go out little-endian and strings end in one zero byte rests on document 01 alone.
//! The rest is what `pcode_to_swf` names, so that it compiles; it is never called.

#![allow(dead_code)]

pub type CharacterId = u16;

/// The bytes of a string.
#[derive(Clone, Copy)]
pub struct SwfStr<'a>(&'a [u8]);

impl<'a> SwfStr<'a> {
    pub fn from_utf8_str(string: &'a str) -> Self {
        Self(string.as_bytes())
    }
}

pub mod write {
    use super::{Header, SwfStr, Tag, error};
    use std::io::{Result, Write};

    pub trait SwfWriteExt {
        fn as_writer(&mut self) -> &mut impl Write;

        fn write_u8(&mut self, n: u8) -> Result<()> {
            self.as_writer().write_all(&[n])
        }

        fn write_u16(&mut self, n: u16) -> Result<()> {
            self.as_writer().write_all(&n.to_le_bytes())
        }

        fn write_i16(&mut self, n: i16) -> Result<()> {
            self.as_writer().write_all(&n.to_le_bytes())
        }

        fn write_i32(&mut self, n: i32) -> Result<()> {
            self.as_writer().write_all(&n.to_le_bytes())
        }

        fn write_u64(&mut self, n: u64) -> Result<()> {
            self.as_writer().write_all(&n.to_le_bytes())
        }

        fn write_string(&mut self, string: SwfStr<'_>) -> Result<()> {
            self.as_writer().write_all(string.0)?;
            self.write_u8(0)
        }
    }

    pub fn write_swf(_: &Header, _: &[Tag<'_>], _: &mut Vec<u8>) -> error::Result<()> {
        unimplemented!("a screen file is no part of the comparison")
    }
}

pub mod error {
    pub type Error = std::io::Error;
    pub type Result<T> = std::result::Result<T, Error>;
}

pub struct Header {
    pub compression: Compression,
    pub version: u8,
    pub stage_size: Rectangle,
    pub frame_rate: Fixed8,
    pub num_frames: u16,
}

pub enum Compression {
    None,
}

pub struct Rectangle {
    pub x_min: Twips,
    pub x_max: Twips,
    pub y_min: Twips,
    pub y_max: Twips,
}

pub struct Twips;

impl Twips {
    pub fn from_pixels(_: f64) -> Self {
        Self
    }
}

pub struct Fixed8;

impl Fixed8 {
    pub fn from_f32(_: f32) -> Self {
        Self
    }
}

pub struct Color;

impl Color {
    pub const WHITE: Self = Self;
}

#[derive(Clone, Copy)]
pub struct FileAttributes;

impl FileAttributes {
    pub const USE_NETWORK_SANDBOX: Self = Self;

    pub fn empty() -> Self {
        Self
    }

    pub fn set(&mut self, _: Self, _: bool) {}
}

pub struct Sprite<'a> {
    pub id: CharacterId,
    pub num_frames: u16,
    pub tags: Vec<Tag<'a>>,
}

pub struct ExportedAsset<'a> {
    pub id: CharacterId,
    pub name: SwfStr<'a>,
}

pub enum Tag<'a> {
    FileAttributes(FileAttributes),
    SetBackgroundColor(Color),
    DoAction(&'a [u8]),
    DefineSprite(Sprite<'a>),
    ExportAssets(Vec<ExportedAsset<'a>>),
    DoInitAction {
        id: CharacterId,
        action_data: &'a [u8],
    },
    ShowFrame,
    End,
}
