//! Lights: what the screen gives where it shows each code.

use crate::refusal::Refusal;

/// Levels and bytes of a page are codes, 0 to 255.
pub const CODES: usize = 256;

/// Lights equal to codes.
pub fn codes() -> Vec<u16> {
    (0..CODES as u16).collect()
}

/// 32 unless there is one light for each code and each is greater than the one before.
pub fn lights_refusal(lights: &[u16]) -> Option<Refusal> {
    let rising = lights.windows(2).all(|pair| pair[0] < pair[1]);
    (lights.len() != CODES || !rising).then_some(Refusal::Lights)
}

pub fn light(lights: &[u16], code: u8) -> u64 {
    lights[usize::from(code)].into()
}

/// The widest gap between two neighbouring lights.
pub fn widest_gap(lights: &[u16]) -> u64 {
    let gaps = lights.windows(2).map(|pair| pair[1] - pair[0]);
    gaps.max().expect("there are 256 lights").into()
}

/// The last light less the first: the greatest distance between two lights.
pub fn span(lights: &[u16]) -> u64 {
    light(lights, 255) - light(lights, 0)
}

#[cfg(test)]
mod tests {
    use super::*;

    #[test]
    fn lights_are_256_and_rise_strictly() {
        let fits = |lights: &[u16]| lights_refusal(lights).is_none();
        assert!(fits(&codes()));
        let longer: Vec<u16> = (0..=256).collect();
        assert!(fits(&longer[1..]));
        assert!(!fits(&longer));
        assert!(!fits(&longer[..255]));
        assert!(!fits(&[]));
        for place in 0..255 {
            let mut lights = codes();
            lights[place] = lights[place + 1];
            assert!(!fits(&lights), "lights {place} and {} are equal", place + 1);
        }
    }

    #[test]
    fn gaps_and_span() {
        assert_eq!((widest_gap(&codes()), span(&codes())), (1, 255));
        for place in 1..256 {
            let mut lights = codes();
            for light in &mut lights[place..] {
                *light += 65280;
            }
            assert_eq!((widest_gap(&lights), span(&lights)), (65281, 65535));
        }
    }
}
