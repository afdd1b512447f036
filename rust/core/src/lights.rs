//! What a screen shows for each code.

use crate::{raw, Refusal};

const CODES: usize = 256;

/// A page of one pixel and no shape, in which nothing but the lights can be refused.
const SHORTEST_LIST: [u8; 11] = *b"INK\x02\x00\x01\x00\x01\x00\x00\x00";

/// One light for each code, strictly rising: light k is how much light the screen gives where a
/// byte of the page is k, in any unit. They are tried when they are made, and never again refused.
///
/// ```
/// use greystroke::{Lights, Refusal};
///
/// let mut squares: Vec<u16> = (0..256).map(|k| k * k + k).collect();
/// assert_eq!(Lights::new(&squares).map(|lights| lights.as_slice()[128]), Ok(16512));
/// assert_eq!(Lights::new(&squares[1..]), Err(Refusal::Lights));
///
/// squares[7] = squares[8];
/// assert_eq!(Lights::new(&squares), Err(Refusal::Lights));
/// ```
#[derive(Clone, Debug, PartialEq, Eq)]
pub struct Lights {
    lights: [u16; CODES],
}

impl Lights {
    /// Lights that a screen was measured to have.
    ///
    /// # Errors
    ///
    /// [`Refusal::Lights`] where they are not 256 in number, or not strictly rising. The library
    /// decides it, by the check of a list in which there is nothing else to refuse.
    pub fn new(lights: &[u16]) -> Result<Lights, Refusal> {
        raw::check_list(&SHORTEST_LIST, 1, lights).map_err(|refused| refused.refusal)?;
        let lights = lights.try_into().expect("fit lights are 256");
        Ok(Lights { lights })
    }

    /// Lights equal to codes: those of a screen that shows each code in proportion.
    pub fn codes() -> Lights {
        let mut lights = [0; CODES];
        for (code, light) in (0..).zip(&mut lights) {
            *light = code;
        }
        Lights { lights }
    }

    /// Light k at place k.
    pub fn as_slice(&self) -> &[u16] {
        &self.lights
    }
}
