//! Random fault codes for a bench under layers.

use super::generator::Generator;

/// How long the stretches of faults are, compared with the tries of all layers
/// together: a shorter one is never seen above them.
#[derive(Clone, Copy)]
enum Stretches {
    None,
    Shorter,
    AsLong,
    Any,
}

const MIX: [(Stretches, usize); 4] = [
    (Stretches::None, 2),
    (Stretches::Shorter, 4),
    (Stretches::AsLong, 4),
    (Stretches::Any, 2),
];

/// At most `most` codes, for `tries` tries of all layers together.
pub fn codes(generator: &mut Generator, tries: usize, most: usize) -> Vec<u8> {
    let stretches = generator.pick_weighted(&MIX);
    let count = match generator.below(8) {
        0 => most,
        1 | 2 => generator.below(most + 1),
        3 | 4 => generator.below(40),
        _ => generator.below(600),
    };
    let mut codes = Vec::new();
    while codes.len() < count {
        push_stretch(generator, stretches, tries, &mut codes);
        let gap = generator.pick(&[1, 1, 1, 2, 3, tries, 5 * tries]);
        codes.extend(vec![0; gap]);
    }
    codes.truncate(count.min(most));
    codes
}

fn push_stretch(
    generator: &mut Generator,
    stretches: Stretches,
    tries: usize,
    codes: &mut Vec<u8>,
) {
    let length = match stretches {
        Stretches::None => 0,
        Stretches::Shorter if generator.one_in(2) => tries - 1,
        Stretches::Shorter => generator.below(tries),
        Stretches::AsLong => generator.pick(&[tries - 1, tries, tries, tries + 1, 2 * tries]),
        Stretches::Any => generator.below(3 * tries),
    };
    let one_code = generator.pick(&[1, 2, 3]);
    let mixed = generator.one_in(2);
    for _ in 0..length {
        codes.push(if mixed {
            generator.pick(&[1, 2, 3])
        } else {
            one_code
        });
    }
}
