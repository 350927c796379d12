//! Building, reading back, and grids that no payload makes.

use judge::build::element_at;
use judge::generate::{
    any_plan, commands, null_symbol_plan, right_payload, spare_set, wrong_length, Fixed, Random, Users,
    COMBINATIONS, HIS, USERS,
};
use judge::owners::{layout, Layout, Owner};
use judge::payload::Sections;
use judge::plan::Plan;
use judge::precoding::{precode, precode_phich, PHICH_EVEN, PHICH_ODD};
use judge::sequence::sequence;
use judge::{build, check, crs, read, sync, Complex, Place};

/// The unit's byte, I and J.
fn element(plan: &Plan, grid: &[u8], port: usize, place: Place) -> [i32; 3] {
    let at = element_at(plan.cell.symbols(), plan.cell.subcarriers(), port, place);
    [i32::from(grid[at]), i32::from(grid[at + 1] as i8), i32::from(grid[at + 2] as i8)]
}

fn parts(bytes: &[u8]) -> (Plan, Layout, Sections) {
    let plan = check(bytes).expect("accepted");
    let layout = layout(&plan);
    let sections = Sections::new(&plan, &layout);
    (plan, layout, sections)
}

fn round_trip(random: &mut Random, bytes: &[u8]) {
    let payload = right_payload(random, bytes).expect("accepted");
    let (plan, layout, _) = parts(bytes);
    let (grid, count) = build(bytes, &payload, plan.cell.grid_length()).expect("built");
    assert_eq!(count, layout.user_elements());
    assert_eq!(grid.len(), plan.cell.grid_length());
    assert_eq!(read(bytes, &grid, payload.len()), Ok((payload, count)));
}

#[test]
fn round_trips_over_every_combination() {
    let mut random = Random::new(31);
    for combination in 0..COMBINATIONS {
        let fixed = Fixed::combination(combination, random.below(504), random.below(1024));
        let (how_his, how_users) = (random.pick(&HIS), random.pick(&USERS));
        let bytes = commands(&mut random, &fixed, how_his, how_users).concat();
        round_trip(&mut random, &bytes);
    }
}

#[test]
fn round_trips_of_any_plan() {
    let mut random = Random::new(32);
    for _ in 0..600 {
        let bytes = any_plan(&mut random);
        round_trip(&mut random, &bytes);
    }
}

/// The ports that have a term at the j-th place of a channel.
fn active(ports: usize, j: usize) -> &'static [usize] {
    match (ports, j % 4) {
        (1, _) => &[0],
        (2, _) => &[0, 1],
        (_, 0 | 1) => &[0, 2],
        _ => &[1, 3],
    }
}

/// The unit byte of a user's elements: "Units 2, 10, 42 [..] units doubled"; "Unit 170 with one port; with diversity 340,
/// whose unit byte is 255".
fn user_unit_byte(bits: usize, ports: usize) -> i32 {
    match (bits, ports) {
        (2, 1) => 2,
        (2, _) => 4,
        (4, 1) => 10,
        (4, _) => 20,
        (6, 1) => 42,
        (6, _) => 84,
        (8, 1) => 170,
        (8, _) => 255,
        _ => panic!("no modulation of {bits} bits"),
    }
}

/// Every element's unit byte by its owner; silence elsewhere.
#[test]
fn unit_bytes_by_owner() {
    let mut random = Random::new(33);
    for _ in 0..300 {
        let bytes = any_plan(&mut random);
        let payload = right_payload(&mut random, &bytes).unwrap();
        let (plan, layout, _) = parts(&bytes);
        let cell = plan.cell;
        let (grid, _) = build(&bytes, &payload, cell.grid_length()).unwrap();
        let double = if cell.ports == 1 { 1 } else { 2 };
        let number = |places: &[Place], place: Place| places.iter().position(|own| *own == place).unwrap();
        for s in 0..cell.symbols() {
            for k in 0..cell.subcarriers() {
                let place = Place { s, k };
                let mut unit_bytes = [0; 4];
                match layout.owner(place) {
                    Owner::Crs(port) => unit_bytes[port] = 2,
                    Owner::Pss => unit_bytes[0] = 63,
                    Owner::Sss => unit_bytes[0] = 1,
                    Owner::Pbch => {
                        let j = number(&layout.pbch, place);
                        active(cell.ports, j).iter().for_each(|port| unit_bytes[*port] = 2 * double);
                    }
                    Owner::Pcfich => {
                        let j = number(&layout.pcfich, place);
                        active(cell.ports, j).iter().for_each(|port| unit_bytes[*port] = 2 * double);
                    }
                    Owner::Phich(unit) => {
                        let quad = number(&layout.phich[unit], place) / 4;
                        let j = if (quad + unit) % 2 == 0 { 0 } else { 2 };
                        active(cell.ports, j).iter().for_each(|port| unit_bytes[*port] = 2 * double);
                    }
                    Owner::User(user) => {
                        // Users' places are sorted.
                        let j = layout.users[user].binary_search(&place).unwrap();
                        let own = user_unit_byte(plan.users[user].bits, cell.ports);
                        active(cell.ports, j).iter().for_each(|port| unit_bytes[*port] = own);
                    }
                    Owner::Held | Owner::Idle => {}
                }
                for (port, unit) in unit_bytes.iter().enumerate().take(cell.ports) {
                    let [u, i, j] = element(&plan, &grid, port, place);
                    assert_eq!(u, *unit, "{place:?} port {port} {:?}", layout.owner(place));
                    if u == 0 {
                        assert_eq!((i, j), (0, 0));
                    }
                }
            }
        }
    }
}

/// The formulas of document 01 and of document 02, #109, without the tables.
fn level(bits: &[u8]) -> i32 {
    let sign: Vec<i32> = bits.iter().map(|bit| 1 - 2 * i32::from(*bit)).collect();
    match sign.len() {
        1 => sign[0],
        2 => sign[0] * (2 - sign[1]),
        3 => sign[0] * (4 - sign[1] * (2 - sign[2])),
        _ => sign[0] * (8 - sign[1] * (4 - sign[2] * (2 - sign[3]))),
    }
}

fn symbol(bits: &[u8]) -> (i32, i32) {
    let even: Vec<u8> = bits.iter().step_by(2).copied().collect();
    let odd: Vec<u8> = bits.iter().skip(1).step_by(2).copied().collect();
    (level(&even), level(&odd))
}

/// The symbol d(j) stands by itself at the j-th place on port 0, with four ports on port 0 or 1; the other
/// active port has minus the conjugate of the next symbol at an even j, else the conjugate of the one before.
fn channel(plan: &Plan, grid: &[u8], places: &[Place], d: &[(i32, i32)]) {
    assert_eq!(places.len(), d.len());
    for (j, place) in places.iter().enumerate() {
        let ports = active(plan.cell.ports, j);
        let [_, re, im] = element(plan, grid, ports[0], *place);
        assert_eq!((re, im), d[j]);
        if plan.cell.ports > 1 {
            let [_, re, im] = element(plan, grid, ports[1], *place);
            let other = if j % 2 == 0 { (-d[j + 1].0, d[j + 1].1) } else { (d[j - 1].0, -d[j - 1].1) };
            assert_eq!((re, im), other);
        }
    }
}

#[test]
fn channels_by_formula() {
    let mut random = Random::new(34);
    for _ in 0..200 {
        let bytes = any_plan(&mut random);
        let payload = right_payload(&mut random, &bytes).unwrap();
        let (plan, layout, sections) = parts(&bytes);
        let (cell, frame) = (plan.cell, plan.frame);
        let (grid, _) = build(&bytes, &payload, cell.grid_length()).unwrap();
        let scrambled = |bits: &[u8], c: &[u8], q: usize| -> Vec<(i32, i32)> {
            let bits: Vec<u8> = bits.iter().zip(c).map(|(bit, c)| bit ^ c).collect();
            bits.chunks(q).map(symbol).collect()
        };
        for ((user, places), section) in plan.users.iter().zip(&layout.users).zip(&sections.users) {
            assert_eq!(section.bits, user.bits * places.len());
            let c_init = (user.rnti << 14) + (frame.subframe << 9) + cell.identity;
            let c = sequence(c_init as u32, section.bits);
            channel(&plan, &grid, places, &scrambled(&section.take(&payload), &c, user.bits));
        }
        if frame.subframe == 0 {
            let bits = if cell.extended { 432 } else { 480 };
            let c = sequence(cell.identity as u32, 4 * bits);
            let c = &c[bits * (frame.frame % 4)..];
            let section: Vec<u8> = payload[..bits / 8]
                .iter()
                .flat_map(|byte| (0..8).rev().map(move |i| (byte >> i) & 1))
                .collect();
            channel(&plan, &grid, &layout.pbch, &scrambled(&section, c, 2));
        }
        let word = [[0, 1, 1], [1, 0, 1], [1, 1, 0]][frame.cfi - 1];
        let bits: Vec<u8> = (0..32).map(|i| word[i % 3]).collect();
        let c_init = (frame.subframe + 1) * (2 * cell.identity + 1) * 512 + cell.identity;
        let c = sequence(c_init as u32, 32);
        channel(&plan, &grid, &layout.pcfich, &scrambled(&bits, &c, 2));

        // PHICH: the sum on the own port; the other port by the pairs of the quad.
        let hi_bits = sections.his.take(&payload);
        for (unit, places) in layout.phich.iter().enumerate() {
            let mut d = [(0, 0); 12];
            for (hi, bit) in plan.his.iter().zip(&hi_bits) {
                let half = if cell.extended { 2 } else { 4 };
                if hi.group / (4 / half) != unit {
                    continue;
                }
                for (i, c) in c.iter().enumerate().take(3 * half) {
                    // Walsh signs; sequences in the upper half of the table are turned by j.
                    let pattern = hi.sequence % half;
                    let inverted = (pattern & 1) * ((i % half) & 1) + (pattern >> 1) * ((i % half) >> 1);
                    let sign = 1 - 2 * ((inverted + usize::from(*c) + usize::from(*bit)) % 2) as i32;
                    let at = if cell.extended { 4 * (i / 2) + 2 * (hi.group % 2) + i % 2 } else { i };
                    d[at].0 += if hi.sequence >= half { -sign } else { sign };
                    d[at].1 += sign;
                }
            }
            for (j, place) in places.iter().enumerate() {
                let ports = match (cell.ports, (j / 4 + unit) % 2) {
                    (4, 0) => vec![0, 2],
                    (4, _) => vec![1, 3],
                    (ports, _) => (0..ports).collect(),
                };
                let [_, re, im] = element(&plan, &grid, ports[0], *place);
                assert_eq!((re, im), d[j]);
                if ports.len() > 1 {
                    let [_, re, im] = element(&plan, &grid, ports[1], *place);
                    let other =
                        if j % 2 == 0 { (-d[j + 1].0, d[j + 1].1) } else { (d[j - 1].0, -d[j - 1].1) };
                    assert_eq!((re, im), other);
                }
            }
        }
    }
}

#[test]
fn references_by_formula() {
    let mut random = Random::new(35);
    for _ in 0..60 {
        let bytes = any_plan(&mut random);
        let payload = right_payload(&mut random, &bytes).unwrap();
        let (plan, layout, _) = parts(&bytes);
        let (cell, frame) = (plan.cell, plan.frame);
        let (grid, _) = build(&bytes, &payload, cell.grid_length()).unwrap();
        for s in 0..cell.symbols() {
            let (n, l) = (2 * frame.subframe + s / cell.slot_symbols(), s % cell.slot_symbols());
            let normal = usize::from(!cell.extended);
            let c_init = 1024 * (7 * (n + 1) + l + 1) * (2 * cell.identity + 1) + 2 * cell.identity + normal;
            let c = sequence(c_init as u32, 440);
            for k in 0..cell.subcarriers() {
                let place = Place { s, k };
                if let Owner::Crs(port) = layout.owner(place) {
                    let m = k / 6 + 110 - cell.blocks;
                    let level = |bit: u8| 1 - 2 * i32::from(bit);
                    assert_eq!(element(&plan, &grid, port, place), [2, level(c[2 * m]), level(c[2 * m + 1])]);
                }
            }
        }
        if sync::present(&frame) {
            for i in 0..62 {
                let k = 6 * cell.blocks - 31 + i;
                let pss = element(&plan, &grid, 0, Place { s: cell.slot_symbols() - 1, k });
                assert_eq!(pss, [63, sync::pss(&cell)[i] as i32, 0]);
                let sss = element(&plan, &grid, 0, Place { s: cell.slot_symbols() - 2, k });
                assert_eq!(sss, [1, sync::sss(&cell, &frame)[i], 0]);
            }
        }
    }
    // The symbols of ports 0 and 1 with the extended prefix: l = 0 and 3.
    let cell = Fixed::combination(6, 0, 0).cell();
    assert!(cell.extended);
    let frame = judge::plan::Frame { frame: 0, subframe: 0, cfi: 1 };
    let symbols: Vec<usize> = crs::symbols_of_port(&cell, &frame, 0).iter().map(|symbol| symbol.s).collect();
    assert_eq!(symbols, [0, 3, 6, 9]);
}

#[test]
fn precoding_by_conjugates() {
    let x = [(1, 2), (3, 4), (5, 6), (7, 8), (9, 10), (11, 12)].map(|(re, im)| Complex::new(re, im));
    let minus = |z: Complex| Some(z.conj() * -1);
    let y = precode(2, &x[..2]);
    assert_eq!(y, [[Some(x[0]), minus(x[1]), None, None], [Some(x[1]), Some(x[0].conj()), None, None]]);
    // Six symbols on four ports: the last pair on ports 0 and 2, no null symbol anywhere.
    let y = precode(4, &x);
    assert_eq!(y.len(), 6);
    assert_eq!(y[2], [None, Some(x[2]), None, minus(x[3])]);
    assert_eq!(y[3], [None, Some(x[3]), None, Some(x[2].conj())]);
    assert_eq!(y[4], [Some(x[4]), None, minus(x[5]), None]);
    assert_eq!(y[5], [Some(x[5]), None, Some(x[4].conj()), None]);
    // PHICH_ODD is PHICH_EVEN one port further.
    for row in 0..16 {
        let shifted = if row % 4 == 0 { [Complex::ZERO; 8] } else { PHICH_EVEN[row - 1] };
        assert_eq!(PHICH_ODD[row], shifted);
    }
    let y = precode_phich(4, 1, &[x[0]; 12]);
    assert!(y[..4].iter().chain(&y[8..]).all(|vector| vector[0].is_none() && vector[1].is_some()));
    assert!(y[4..8].iter().all(|vector| vector[0].is_some() && vector[1].is_none()));
}

#[test]
fn the_null_symbol_plan_is_built_and_read() {
    let mut random = Random::new(36);
    let bytes = null_symbol_plan();
    for _ in 0..20 {
        round_trip(&mut random, &bytes);
    }
    let (plan, layout, _) = parts(&bytes);
    let payload = right_payload(&mut random, &bytes).unwrap();
    let (grid, count) = build(&bytes, &payload, plan.cell.grid_length()).unwrap();
    assert_eq!(count % 4, 2);
    for place in &layout.users[0][count - 2..] {
        let units = [0, 1, 2, 3].map(|port| element(&plan, &grid, port, *place)[0]);
        assert_eq!(units, [4, 0, 4, 0]);
    }
}

#[test]
fn an_empty_unit_keeps_its_unit() {
    for (ports, expected) in
        [(1, vec![[2, 0, 0]]), (2, vec![[4, 0, 0]; 2]), (4, vec![[4, 0, 0], [0; 3], [4, 0, 0], [0; 3]])]
    {
        let bytes = [0x10, 0, 0, 15, 0, ports, 1, 0x11, 0, 0, 1, 1, 0];
        let (plan, layout, _) = parts(&bytes);
        let (grid, count) = build(&bytes, &[], plan.cell.grid_length()).unwrap();
        assert_eq!(count, 0);
        let found: Vec<[i32; 3]> =
            (0..ports as usize).map(|port| element(&plan, &grid, port, layout.phich[0][0])).collect();
        assert_eq!(found, expected);
    }
}

#[test]
fn eight_bits_sum_to_eight() {
    // All eight sequences of one group: some element has a level of 8 for some bits, none beyond.
    let mut bytes = vec![0x10, 0, 0, 15, 0, 1, 1, 0x11, 0, 0, 1, 1];
    (0..8).for_each(|sequence| bytes.extend([0x20, 0, sequence]));
    bytes.push(0);
    let (plan, layout, _) = parts(&bytes);
    let mut largest = 0;
    for payload in 0..=255u8 {
        let (grid, _) = build(&bytes, &[payload], plan.cell.grid_length()).unwrap();
        for place in &layout.phich[0] {
            let [_, i, j] = element(&plan, &grid, 0, *place);
            largest = largest.max(i.abs()).max(j.abs());
        }
        assert_eq!(read(&bytes, &grid, 1), Ok((vec![payload], 0)));
    }
    assert_eq!(largest, 8);
}

#[test]
fn refusals_in_order() {
    // One HI and a user: one spare section, then maybe another.
    let bytes = [0x10, 0, 0, 15, 0, 1, 1, 0x11, 0, 0, 1, 1, 0x20, 0, 0, 0x30, 0, 1, 2, 0, 15, 0];
    let (plan, _, sections) = parts(&bytes);
    let (grid, payload) = (plan.cell.grid_length(), sections.length);
    assert_eq!(payload, 564);
    let spare = [vec![1], vec![0; payload - 1]].concat();
    assert_eq!(build(&bytes[..21], &spare[1..], grid + 1), Err(1));
    assert_eq!(build(&bytes, &spare[1..], grid + 1), Err(10));
    assert_eq!(build(&bytes, &spare, grid - 1), Err(10));
    assert_eq!(build(&bytes, &spare[1..], grid), Err(11));
    assert_eq!(build(&bytes, &spare, grid), Err(12));
    // 4500 bits leave four spare bits in the last byte.
    let mut last = vec![0; payload];
    last[payload - 1] = 0x10;
    assert!(build(&bytes, &last, grid).is_ok());
    last[payload - 1] = 0x08;
    assert_eq!(build(&bytes, &last, grid), Err(12));
    let silent = vec![0; grid];
    assert_eq!(read(&bytes[..21], &silent[1..], 0), Err(1));
    assert_eq!(read(&bytes, &silent[1..], 0), Err(10));
    assert_eq!(read(&bytes, &silent, 0), Err(11));
    assert_eq!(read(&bytes, &silent, payload), Err(13));
}

#[test]
fn wrong_payloads() {
    let mut random = Random::new(37);
    let mut spares = 0;
    for _ in 0..300 {
        let bytes = any_plan(&mut random);
        let (plan, _, _) = parts(&bytes);
        let right = right_payload(&mut random, &bytes).unwrap();
        let wrong = wrong_length(&mut random, &right);
        assert_eq!(build(&bytes, &wrong, plan.cell.grid_length()), Err(11));
        if let Some(spare) = spare_set(&mut random, &bytes) {
            assert_eq!(build(&bytes, &spare, plan.cell.grid_length()), Err(12));
            spares += 1;
        }
    }
    assert!(spares > 100);
}

/// A damaged grid is refused 13, or it is the grid of another payload.
#[test]
fn damaged_grids() {
    let mut random = Random::new(38);
    let (mut refused, mut other) = (0, 0);
    for _ in 0..150 {
        let bytes = any_plan(&mut random);
        let payload = right_payload(&mut random, &bytes).unwrap();
        let (plan, layout, _) = parts(&bytes);
        let (grid, count) = build(&bytes, &payload, plan.cell.grid_length()).unwrap();
        for _ in 0..8 {
            let mut damaged = grid.clone();
            for _ in 0..1 + random.below(2) {
                let at = random.below(damaged.len());
                damaged[at] = match random.below(3) {
                    0 => damaged[at].wrapping_neg(),
                    1 => random.byte(),
                    _ => damaged[at] ^ 1 << random.below(8),
                };
            }
            match read(&bytes, &damaged, payload.len()) {
                Ok((found, elements)) => {
                    assert_eq!(elements, count);
                    assert_eq!(build(&bytes, &found, damaged.len()), Ok((damaged.clone(), count)));
                    assert_eq!(found == payload, damaged == grid);
                    other += usize::from(found != payload);
                }
                Err(refusal) => {
                    assert_eq!(refusal, 13);
                    refused += 1;
                }
            }
        }
        // A change where no payload reaches is always refused.
        for s in 0..plan.cell.symbols() {
            let place = Place { s, k: random.below(plan.cell.subcarriers()) };
            let fixed = matches!(
                layout.owner(place),
                Owner::Crs(_) | Owner::Pss | Owner::Sss | Owner::Pcfich | Owner::Held | Owner::Idle
            );
            if fixed {
                let port = random.below(plan.cell.ports);
                let at = element_at(plan.cell.symbols(), plan.cell.subcarriers(), port, place);
                let mut damaged = grid.clone();
                damaged[at + random.below(3)] ^= 1 << random.below(8);
                assert_eq!(read(&bytes, &damaged, payload.len()), Err(13));
            }
        }
    }
    assert!(refused > 300 && other > 5, "{refused} refused, {other} other payloads");
}

/// With one port, the sign of a level is one bit.
#[test]
fn one_sign_is_one_bit() {
    let mut random = Random::new(39);
    for _ in 0..40 {
        let fixed = Fixed { ports: 1, ..Fixed::random(&mut random) };
        let bytes = commands(&mut random, &fixed, HIS[2], Users::Many).concat();
        let payload = right_payload(&mut random, &bytes).unwrap();
        let (plan, layout, sections) = parts(&bytes);
        let (mut grid, _) = build(&bytes, &payload, plan.cell.grid_length()).unwrap();
        let user = random.below(plan.users.len());
        let j = random.below(layout.users[user].len());
        let odd = random.below(2);
        let at = element_at(plan.cell.symbols(), plan.cell.subcarriers(), 0, layout.users[user][j]);
        grid[at + 1 + odd] = grid[at + 1 + odd].wrapping_neg();
        let bit = plan.users[user].bits * j + odd;
        let mut expected = payload.clone();
        expected[sections.users[user].first_byte + bit / 8] ^= 0x80 >> (bit % 8);
        let count = layout.user_elements();
        assert_eq!(read(&bytes, &grid, payload.len()), Ok((expected, count)));
    }
}

/// A user over all blocks.
fn one_user(bits: u8, ports: u8) -> [u8; 19] {
    [0x10, 0, 9, 15, 0, ports, 1, 0x11, 0, 0, 1, 1, 0x30, 0, 1, bits, 0, 15, 0]
}

/// A user of 64QAM or 256QAM on one port: which elements in place of its first one are those of another payload. Levels are
/// odd and to 7 in unit 42, to 15 in unit 170.
#[test]
fn levels_beyond_the_order() {
    let mut random = Random::new(41);
    let of_six_bits = [([42, 7, -7], true), ([42, 9, 1], false), ([42, 15, 1], false), ([170, 7, 7], false)];
    let of_eight =
        [([170, 15, -15], true), ([170, 9, 1], true), ([170, 17, 1], false), ([170, 1, -16], false)];
    for (bits, elements) in [(6, of_six_bits), (8, of_eight)] {
        let bytes = one_user(bits, 1);
        let payload = right_payload(&mut random, &bytes).unwrap();
        let (plan, layout, _) = parts(&bytes);
        let (grid, count) = build(&bytes, &payload, plan.cell.grid_length()).unwrap();
        let at = element_at(plan.cell.symbols(), plan.cell.subcarriers(), 0, layout.users[0][0]);
        for (element, legal) in elements {
            let mut changed = grid.clone();
            changed[at..at + 3].copy_from_slice(&element.map(|byte: i32| byte as u8));
            match read(&bytes, &changed, payload.len()) {
                Ok((found, _)) => {
                    assert!(legal, "{element:?}");
                    assert_eq!(build(&bytes, &found, grid.len()), Ok((changed, count)));
                }
                Err(refusal) => assert_eq!((refusal, legal), (13, false), "{element:?}"),
            }
        }
    }
}

/// With diversity the byte of 256QAM's unit is 255: not 340 mod 256 = 84, nor that of unit 170.
#[test]
fn the_byte_of_unit_340() {
    let mut random = Random::new(42);
    for ports in [2, 4] {
        let bytes = one_user(8, ports);
        let payload = right_payload(&mut random, &bytes).unwrap();
        let (plan, layout, _) = parts(&bytes);
        let (grid, _) = build(&bytes, &payload, plan.cell.grid_length()).unwrap();
        let units: Vec<usize> = (0..grid.len()).step_by(3).filter(|at| grid[*at] == 255).collect();
        assert_eq!(units.len(), 2 * layout.user_elements());
        for byte in [84, 170, 254] {
            let mut changed = grid.clone();
            units.iter().for_each(|at| changed[*at] = byte);
            assert_eq!(read(&bytes, &changed, payload.len()), Err(13));
        }
    }
}

/// A build of the largest grid stays quick.
#[test]
fn one_hundred_blocks() {
    let mut random = Random::new(40);
    let fixed = Fixed {
        identity: 503,
        blocks: 100,
        prefix: 0,
        ports: 4,
        g: 12,
        duration: None,
        frame: 3,
        subframe: 0,
        cfi: 1,
    };
    let bytes = commands(&mut random, &fixed, HIS[4], Users::OneBlockEach).concat();
    let payload = right_payload(&mut random, &bytes).unwrap();
    let start = std::time::Instant::now();
    let (grid, _) = build(&bytes, &payload, fixed.cell().grid_length()).unwrap();
    println!("built in {:?}", start.elapsed());
    assert_eq!(grid.len(), 36 * 100 * 14 * 4);
}
