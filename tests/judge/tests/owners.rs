//! Owners and their counts.

use judge::generate::{any_plan, null_symbol_plan, Fixed, Random, COMBINATIONS};
use judge::owners::{layout, Owner, KINDS};
use judge::plan::{Plan, UserCommand};
use judge::{check, counts, owner, owner_numbers, Place};

fn empty_plan(combination: usize, identity: usize) -> Plan {
    let fixed = Fixed::combination(combination, identity, 0);
    let frame = judge::plan::Frame { frame: 0, subframe: fixed.subframe, cfi: fixed.cfi };
    Plan { cell: fixed.cell(), frame, his: vec![], users: vec![] }
}

#[test]
fn counts_of_the_fixed_channels() {
    // Every combination with every rest of C: that no two rules claim one place is checked on the way.
    for combination in 0..COMBINATIONS {
        let identity = (combination * 5) % 504;
        let plan = empty_plan(combination, identity);
        let (cell, frame) = (plan.cell, plan.frame);
        let count = layout(&plan).counts();
        assert_eq!(count.iter().sum::<usize>(), cell.subcarriers() * cell.symbols());
        let crs = [0, 8, 16, 0, 24][cell.ports] * cell.blocks;
        let sync = if frame.subframe % 5 == 0 { 62 } else { 0 };
        let pbch = match (frame.subframe, cell.extended) {
            (0, false) => 240,
            (0, true) => 216,
            _ => 0,
        };
        // Absent ports' holes in the PBCH area: 12 for each of four ports in a symbol with references.
        let holes = match (frame.subframe, cell.ports, cell.extended) {
            (0, 1, false) => 12 + 24,
            (0, 1, true) => 12 + 24 + 12,
            (0, 2, _) => 24,
            _ => 0,
        };
        let held = holes + if sync > 0 { 20 } else { 0 };
        let phich = 12 * cell.phich_units();
        assert_eq!(count[..6], [crs, sync, sync, pbch, 16, phich], "{plan:?}");
        assert_eq!((count[6], count[7]), (0, held), "{plan:?}");
    }
}

#[test]
fn all_identities() {
    for identity in 0..504 {
        for combination in [0, 7, 1234, 2345] {
            let plan = empty_plan(combination, identity);
            let count = layout(&plan).counts();
            assert_eq!(count.iter().sum::<usize>(), plan.cell.subcarriers() * plan.cell.symbols());
        }
    }
}

/// A plan of combination `combination` with one user for each block.
fn one_block_each(combination: usize, identity: usize) -> Plan {
    let mut plan = empty_plan(combination, identity);
    plan.users = (0..plan.cell.blocks)
        .map(|first| UserCommand { rnti: 1 + first, bits: 2, first, count: 1 })
        .collect();
    plan
}

#[test]
fn every_block_has_24_elements() {
    let mut least = [usize::MAX; 101];
    for combination in 0..COMBINATIONS {
        let plan = one_block_each(combination, combination % 504);
        let counts = layout(&plan).users.into_iter().map(|places| places.len());
        let fewest = counts.min().expect("a user");
        least[plan.cell.blocks] = least[plan.cell.blocks].min(fewest);
    }
    // Six blocks: two symbols of twelve. Else one symbol more, with four references at most.
    assert_eq!(least[6], 24);
    assert_eq!([15, 25, 50, 75, 100].map(|blocks| least[blocks]), [32; 5]);
}

/// Every cell of six blocks with every subframe, CFI and PHICH duration: rules go by C modulo 6, 12 and 8 alone. No two
/// of them claim one place, or `layout` panics.
#[test]
fn every_cell_of_six_blocks() {
    let mut cells = 0;
    for combination in (0..COMBINATIONS).filter(|i| Fixed::combination(*i, 0, 0).blocks == 6) {
        for identity in 0..24 {
            let plan = one_block_each(combination, identity);
            let (cell, frame) = (plan.cell, plan.frame);
            let count = layout(&plan).counts();
            assert_eq!(count.iter().sum::<usize>(), 72 * cell.symbols());
            // All blocks have a user: what is idle lies in the control region. Symbol 0 has 12 groups of six places,
            // of which two are references or skipped; with one port those of port 1 are idle. PHICH has three groups
            // for each unit, wherever they are.
            let groups = 12 - 4 - 3 * cell.phich_units();
            let skipped = if cell.ports == 1 { 12 } else { 0 };
            let references = |s: usize| match (s, cell.ports) {
                (1, 4) => 24,
                (3, 1) if cell.extended => 12,
                (3, _) if cell.extended => 24,
                _ => 0,
            };
            let others: usize = (1..=frame.cfi).map(|s| 72 - references(s)).sum();
            assert_eq!(count[8], 4 * groups + skipped + others, "{plan:?}");
            cells += 1;
        }
    }
    // Three CFIs with the normal duration, two with the extended one.
    assert_eq!(cells, 24 * 2 * 3 * 4 * 10 * (3 + 2));
}

/// Where PHICH and what is idle lie, symbol by symbol, with either duration.
#[test]
fn phich_by_symbols() {
    let (mut normal, mut long) = (0, 0);
    for combination in 0..COMBINATIONS {
        let plan = empty_plan(combination, (combination * 11) % 504);
        let (cell, units) = (plan.cell, plan.cell.phich_units());
        let layout = layout(&plan);
        let of = |s: usize, kind: usize| {
            let places = (0..cell.subcarriers()).map(|k| layout.owner(Place { s, k }));
            places.filter(|owner| owner.kind() == kind).count()
        };
        let places = [0, 1, 2, 3].map(|s| of(s, 5));
        if !cell.extended_phich {
            normal += 1;
            assert_eq!(places, [12 * units, 0, 0, 0]);
            continue;
        }
        long += 1;
        assert!(plan.control_symbols() >= 3);
        assert_eq!(places, [4 * units, 4 * units, 4 * units, 0]);
        // Without users all of a control symbol that has no reference signal and no quad is idle: in symbol 0 two
        // places of six are skipped, with one port half of these.
        let skipped = if cell.ports == 1 { 2 * cell.blocks } else { 0 };
        let references = if cell.ports == 4 { 4 * cell.blocks } else { 0 };
        assert_eq!(of(0, 8), 8 * cell.blocks - 16 - 4 * units + skipped);
        assert_eq!(of(1, 8), 12 * cell.blocks - references - 4 * units);
        assert_eq!(of(2, 8), 12 * cell.blocks - 4 * units);
        for (unit, places) in layout.phich.iter().enumerate() {
            let symbols: Vec<usize> = places.iter().map(|place| place.s).collect();
            assert_eq!(symbols, [0, 0, 0, 0, 1, 1, 1, 1, 2, 2, 2, 2], "unit {unit}");
        }
    }
    assert_eq!((normal, long), (6 * 2 * 3 * 4 * 10 * 3, 7 * 2 * 3 * 4 * 10));
}

/// Elements of a user over all six blocks, worked out by hand.
#[test]
fn users_of_six_blocks_by_hand() {
    let elements = |prefix: u8, ports: u8, subframe: u8, cfi: u8| {
        let plan = [0x10, 0, 7, 6, prefix, ports, 1, 0x11, 0, 0, subframe, cfi, 0x30, 0, 1, 2, 0, 6, 0];
        layout(&check(&plan).expect("accepted")).user_elements()
    };
    for ports in [1, 2, 4] {
        // Extended, f = 0, CFI 3: of twelve symbols four are control, two have SSS and PSS, four PBCH.
        assert_eq!(elements(1, ports, 0, 3), 6 * 24);
        // With CFI 2 symbol 3 comes in, which has references: on one port two in a block, else four.
        assert_eq!(elements(1, ports, 0, 2), 6 * (24 + if ports == 1 { 10 } else { 8 }));
    }
    // Normal, f = 0, CFI 3: symbols 4 and 11, with references, and 12 and 13.
    assert_eq!([1, 2, 4].map(|ports| elements(0, ports, 0, 3)), [6 * 44, 6 * 40, 6 * 40]);
    // Normal, f = 1, CFI 1: symbols 2 to 13; references in 4, 7 and 11, on four ports in 8 too.
    assert_eq!(
        [1, 2, 4].map(|ports| elements(0, ports, 1, 1)),
        [6 * (144 - 3 * 2), 6 * (144 - 3 * 4), 6 * (144 - 4 * 4)]
    );
    // Normal, f = 5, CFI 2: symbols 3 to 13 without 5 and 6.
    assert_eq!(elements(0, 2, 5, 2), 6 * (9 * 12 - 3 * 4));
}

#[test]
fn users_add_up() {
    let mut random = Random::new(21);
    for _ in 0..400 {
        let bytes = any_plan(&mut random);
        let plan = check(&bytes).unwrap();
        let (cell, frame) = (plan.cell, plan.frame);
        let region = if cell.blocks == 6 { frame.cfi + 1 } else { frame.cfi };
        let layout = layout(&plan);
        let count = layout.counts();
        assert_eq!(count.iter().sum::<usize>(), cell.subcarriers() * cell.symbols());
        assert_eq!(counts(&bytes), Ok(count));
        assert_eq!(count[6], layout.user_elements());
        for (number, (user, places)) in plan.users.iter().zip(&layout.users).enumerate() {
            // "k first, then s", in its blocks, behind the control region.
            assert!(places.windows(2).all(|two| (two[0].s, two[0].k) < (two[1].s, two[1].k)));
            for place in places {
                assert!((user.first..user.first + user.count).contains(&(place.k / 12)));
                assert!(place.s >= region);
                assert_eq!(layout.owner(*place), Owner::User(number));
            }
            assert!(!places.is_empty());
            assert!(cell.ports == 1 || places.len() % 2 == 0);
        }
        // No idle place where a user could stand.
        for s in region..cell.symbols() {
            for k in 0..cell.subcarriers() {
                if layout.owner(Place { s, k }) == Owner::Idle {
                    assert!(plan.users.iter().all(|u| !(u.first..u.first + u.count).contains(&(k / 12))));
                }
            }
        }
        let numbers = owner_numbers(&bytes).unwrap();
        let (s, k) = (random.below(cell.symbols()), random.below(cell.subcarriers()));
        for port in 0..cell.ports {
            assert_eq!(owner(&bytes, s, k, port), Ok(numbers[s * cell.subcarriers() + k]));
        }
    }
    assert_eq!(KINDS.len(), 9);
}

#[test]
fn the_plan_with_null_symbols() {
    let bytes = null_symbol_plan();
    let plan = check(&bytes).unwrap();
    let places = layout(&plan).users[0].len();
    assert_eq!(places % 4, 2);
    // Block 4 has subcarriers 48..59, the centre 72 starts at 54. Symbols 1..11 of twelve, less four
    // references in five of them, less the upper half of SSS and PSS, less its 4 + 4 + 6 + 4 of PBCH.
    assert_eq!(places, 11 * 12 - 5 * 4 - 2 * 6 - 18);
}

#[test]
fn null_symbols_come_only_there() {
    // Four ports, one block each: only the blocks that the centre 72 cuts, with the extended prefix, an odd
    // number of blocks and f = 0, have a count that is no multiple of four.
    for combination in 0..COMBINATIONS {
        let fixed = Fixed::combination(combination, combination % 504, 0);
        if fixed.ports != 4 {
            continue;
        }
        let plan = one_block_each(combination, combination % 504);
        let cut = |block: usize| {
            let centre = plan.cell.centre();
            block == centre.start / 12 || block == centre.end / 12
        };
        for (block, places) in layout(&plan).users.iter().enumerate() {
            let null = fixed.prefix == 1 && fixed.blocks % 2 == 1 && fixed.subframe == 0 && cut(block);
            assert_eq!(places.len() % 4, if null { 2 } else { 0 }, "{fixed:?} block {block}");
        }
    }
}

#[test]
fn holes_of_absent_ports() {
    // One port, C = 0, f = 0: k = 3 of symbol 0 is idle; 6N − 36 + 3 of symbol 7 is held.
    let plan = [0x10, 0, 0, 15, 0, 1, 1, 0x11, 0, 0, 0, 1, 0x30, 0, 1, 2, 0, 15, 0];
    assert_eq!(owner(&plan, 0, 0, 0), Ok(0));
    assert_eq!(owner(&plan, 0, 3, 0), Ok(513));
    assert_eq!(owner(&plan, 7, 54, 0), Ok(0));
    assert_eq!(owner(&plan, 7, 57, 0), Ok(512));
    assert_eq!(owner(&plan, 7, 55, 0), Ok(32));
    assert_eq!(owner(&plan, 7, 3, 0), Ok(256));
    assert_eq!(owner(&plan, 8, 54, 0), Ok(512));
    assert_eq!(owner(&plan, 6, 54, 0), Ok(512));
    assert_eq!(owner(&plan, 6, 59, 0), Ok(16));
    assert_eq!(owner(&plan, 5, 59, 0), Ok(17));
    assert_eq!(owner(&plan, 0, 1, 0), Ok(33));
    assert_eq!(owner(&plan, 0, 7, 0), Ok(64));
}
