//! The two source files, included without a changed character, and what they name of their own crate.

/// pcode.rs, where swf.rs looks for it.
pub mod internal {
    #[allow(dead_code)]
    pub mod as2_pcode {
        include!(env!("ORACLE_SOURCE_PCODE_RS"));
    }
}

/// Stands in for the module `program`: the fields that `pcode_to_swf` names. It is compiled and never called.
pub mod program {
    use crate::internal::as2_pcode::Actions;

    pub struct CompiledProgram {
        pub custom_pcodes: Vec<Actions>,
        pub initializer: Option<Actions>,
        pub extra_modules: Vec<(String, Actions)>,
        pub compile_options: CompileOptions,
    }

    pub struct CompileOptions {
        pub swf_version: u8,
    }

    pub struct SwfOptions {
        pub use_network_sandbox: bool,
        pub stage_x_min: f64,
        pub stage_x_max: f64,
        pub stage_y_min: f64,
        pub stage_y_max: f64,
        pub frame_rate: f32,
    }
}

/// swf.rs. Its encoder is private: `entry` is a child, and so sees it.
#[allow(dead_code)]
pub mod encoder {
    use crate::swf;

    include!(env!("ORACLE_SOURCE_SWF_RS"));

    pub mod entry {
        use super::{ActionEncoder, EncoderError, OpCode};
        use crate::internal::as2_pcode::Actions;
        use std::io;

        /// What the encoder refuses, with its values.
        #[derive(Clone, Copy, Debug, Eq, PartialEq)]
        pub enum Overflow {
            ActionLen(usize),
            BlockLen(usize),
            JumpOffset(isize),
        }

        /// One block, as `pcode_to_swf` makes each of its own: the actions, one End, then the labels.
        pub fn encode(actions: &Actions) -> Result<Vec<u8>, Overflow> {
            let mut encoder = ActionEncoder::new();
            match write(&mut encoder, actions) {
                Ok(()) => Ok(encoder.output),
                Err(e) => Err(overflow(e)),
            }
        }

        fn write<'a>(encoder: &mut ActionEncoder<'a>, actions: &'a Actions) -> io::Result<()> {
            encoder.write_actions(actions)?;
            encoder.write_small_action(OpCode::End)?;
            encoder.patch_labels()
        }

        /// The encoder's own error, taken out of the one that `io::Result` carries.
        fn overflow(e: io::Error) -> Overflow {
            let inner = e.into_inner().expect("writing to a Vec does not fail");
            match *inner.downcast().expect("the encoder's error") {
                EncoderError::ActionLenOverflow(n) => Overflow::ActionLen(n),
                EncoderError::BlockLenOverflow(n) => Overflow::BlockLen(n),
                EncoderError::JumpOffsetOverflow(n) => Overflow::JumpOffset(n),
                EncoderError::TooManyModules => unreachable!("no modules are written"),
            }
        }
    }
}
