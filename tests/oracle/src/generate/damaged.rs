//! Good sheets with one to three faults, by bytes or by parts.
use super::{arbitrary::arbitrary, draft::column, sound::sound};
use crate::{
    rng::Rng,
    sheet::{rule, Layout, Plain, Step, HEADER_BYTES, LAST_COLUMN, PAIR_BYTES, STEPS, STEP_BYTES},
};

pub fn damaged(mut rng: Rng) -> Vec<u8> {
    let inner = rng.fork();
    let bytes = match rng.below(3) {
        0 => sound(inner),
        1 => arbitrary(inner, false),
        _ => arbitrary(inner, true),
    };
    let layout = Layout::read(&bytes).expect("a good sheet");
    if rng.chance(50) {
        damaged_bytes(rng, bytes, regions(&layout))
    } else {
        damaged_parts(rng, layout.plain())
    }
}

/// Where header, name pairs, proposition pairs, steps, text and code lie.
fn regions(layout: &Layout) -> [(usize, usize); 6] {
    let Layout { names, props, steps, text, code, .. } = layout;
    let pairs = [names.len(), props.len()].map(|count| PAIR_BYTES * count);
    let mut from = 0;
    [HEADER_BYTES, pairs[0], pairs[1], STEP_BYTES * steps.len(), text.len(), code.len()].map(|size| {
        from += size;
        (from - size, from)
    })
}

/// Faults in single parts, all else consistent: most reach refusals 4 to 11, and two of them ask which comes first.
fn damaged_parts(mut rng: Rng, mut parts: Plain) -> Vec<u8> {
    for _ in 0..rng.range(1, 3) {
        if !parts.steps.is_empty() {
            damage_part(&mut rng, &mut parts);
        }
    }
    let mut layout = parts.layout();
    if rng.chance(25) {
        damage_pair(&mut rng, &mut layout);
    }
    layout.bytes()
}

fn damage_part(rng: &mut Rng, parts: &mut Plain) {
    let (n, p, s) = (parts.names.len(), parts.props.len(), parts.steps.len());
    let (name, prop, at) = (rng.below(n.max(1)), rng.below(p), rng.below(s));
    match rng.below(10) {
        0 if n > 0 => parts.names[name].resize(*rng.pick(&[0, 32, 33]), b'a'),
        1 if n > 0 && !parts.names[name].is_empty() => {
            let byte = rng.below(parts.names[name].len());
            parts.names[name][byte] = *rng.pick(b"0_@[`{/:\0\x80\xff ");
        }
        2 => damage_code(rng, &mut parts.props[prop]),
        3 | 4 => {
            let more = rng.range(60, 65);
            let code = std::mem::take(&mut parts.props[prop]);
            parts.props[prop] = [vec![2; more], code, vec![0; more]].concat();
        }
        5 | 6 => {
            let value = *rng.pick(&[0, 1, n, p, 17, 65535]) as u16;
            damage_step(rng, &mut parts.steps[at], value);
        }
        7 => parts.steps[at].count = *rng.pick(&[0, 1, 2, 3, 4, 255]),
        8 => drop(parts.steps.remove(at)),
        _ => {
            let more = rng.range(1, 256).min(STEPS.saturating_sub(s));
            let top = |_| Step { rule: rule::ALPHA, count: 1, column: column(rng), ..Step::default() };
            parts.steps.extend((0..more).map(top));
        }
    }
}

fn damage_code(rng: &mut Rng, code: &mut Vec<u8>) {
    match rng.below(4) {
        0 => code.clear(),
        1 => drop(code.pop()),
        2 => code.push(rng.below(9) as u8),
        _ if code.is_empty() => {}
        _ => {
            let byte = rng.below(code.len());
            code[byte] = rng.below(9) as u8;
        }
    }
}

fn damage_step(rng: &mut Rng, step: &mut Step, value: u16) {
    match rng.below(10) {
        0 => step.rule = rng.below(18) as u8,
        field @ (1 | 3) => step.idents[field / 2].0 = value,
        field @ (2 | 4) => step.idents[field / 2 - 1].1 = value,
        5 => step.kind = rng.below(3) as u16,
        9 => step.column = *rng.pick(&[LAST_COLUMN, LAST_COLUMN + 1, u16::MAX]),
        field => step.conclusion[field - 6] = value,
    }
}

fn damage_pair(rng: &mut Rng, layout: &mut Layout) {
    let pairs = if rng.chance(50) { &mut layout.names } else { &mut layout.props };
    if !pairs.is_empty() {
        let at = rng.below(pairs.len());
        let (offset, length) = &mut pairs[at];
        let end = if rng.chance(50) { offset } else { length };
        *end = *rng.pick(&[end.wrapping_add(1), end.wrapping_sub(1), 0, 65535]);
    }
}

fn damaged_bytes(mut rng: Rng, mut bytes: Vec<u8>, regions: [(usize, usize); 6]) -> Vec<u8> {
    for _ in 0..rng.range(1, 3) {
        damage_bytes(&mut rng, &mut bytes, &regions);
    }
    bytes
}

fn damage_bytes(rng: &mut Rng, bytes: &mut Vec<u8>, regions: &[(usize, usize); 6]) {
    let length = bytes.len();
    let (steps, end) = regions[3];
    let step = |rng: &mut Rng| steps + STEP_BYTES * rng.below((end - steps) / STEP_BYTES);
    match rng.below(40) {
        0 => bytes.truncate(rng.below(length + 1)),
        1 => bytes.truncate(length.saturating_sub(rng.range(1, 20))),
        2 => {
            let more = rng.range(1, 20);
            bytes.extend(rng.bytes(more));
        }
        3 if length > 0 => drop(bytes.remove(rng.below(length))),
        4 => bytes.insert(rng.below(length + 1), rng.draw() as u8),
        5 | 6 => {
            let count = step(rng) + 1;
            if count < length {
                bytes[count] = *rng.pick(&[0, 1, 2, 3, 4, 255]);
            }
        }
        7 => {
            let (a, b) = (step(rng), step(rng));
            if a.max(b) + STEP_BYTES <= length {
                (0..STEP_BYTES).for_each(|k| bytes.swap(a + k, b + k));
            }
        }
        _ => {
            let (from, to) = regions[rng.weighted(&[1, 4, 4, 6, 4, 4])];
            let at = from + rng.below((to - from).max(1));
            if at < length {
                bytes[at] = damaged_byte(rng, bytes[at]);
            }
        }
    }
}

fn damaged_byte(rng: &mut Rng, byte: u8) -> u8 {
    match rng.below(6) {
        0 => rng.draw() as u8,
        1 => byte.wrapping_add(1),
        2 => byte.wrapping_sub(1),
        3 => byte ^ (1 << rng.below(8)),
        4 => rng.below(18) as u8,
        _ => *rng.pick(&[0, 255, b'_', b'0', b'A', b'z', b'{']),
    }
}
