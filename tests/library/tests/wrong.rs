//! A library made of the judge agrees with it; libraries that are wrong in one thing do not.

use judge::build::element_at;
use judge::control::{groups, phich_places, places_of_group};
use judge::owners::layout;
use judge::payload::Sections;
use judge::plan::{Cell, Plan, CELLX};
use judge::sample::sample_numbers;
use judge::{Place, Refusal};
use library::calls::Library;
use library::found::Found;
use library::sections::{named, SECTIONS};
use std::cell::RefCell;
use std::ops::Range;
use std::slice;

/// A buffer that is lent for reading; with length 0 its pointer may be NULL.
unsafe fn from_raw_parts<'a>(first: *const u8, length: usize) -> &'a [u8] {
    if length == 0 {
        return &[];
    }
    slice::from_raw_parts(first, length)
}

/// The same, lent for writing.
unsafe fn from_raw_parts_mut<'a>(first: *mut u8, length: usize) -> &'a mut [u8] {
    if length == 0 {
        return &mut [];
    }
    slice::from_raw_parts_mut(first, length)
}

fn number<T>(answer: Result<T, Refusal>, value: impl Fn(T) -> usize) -> i64 {
    answer.map_or_else(|refusal| -i64::from(refusal), |answer| value(answer) as i64)
}

unsafe extern "C" fn check(plan: *const u8, length: usize) -> i64 {
    number(judge::check(from_raw_parts(plan, length)), |_| 0)
}

unsafe extern "C" fn grid_len(plan: *const u8, length: usize) -> i64 {
    number(judge::grid_length(from_raw_parts(plan, length)), |length| length)
}

unsafe extern "C" fn payload_len(plan: *const u8, length: usize) -> i64 {
    number(judge::payload_length(from_raw_parts(plan, length)), |length| length)
}

/// Writes the bytes of an accepted call.
unsafe fn write(answer: Result<(Vec<u8>, usize), Refusal>, to: *mut u8, length: usize) -> i64 {
    number(answer, |(bytes, count)| {
        from_raw_parts_mut(to, length).copy_from_slice(&bytes);
        count
    })
}

unsafe extern "C" fn build(
    p: *const u8,
    pl: usize,
    given: *const u8,
    gl: usize,
    to: *mut u8,
    n: usize,
) -> i64 {
    write(judge::build(from_raw_parts(p, pl), from_raw_parts(given, gl), n), to, n)
}

unsafe extern "C" fn read(
    p: *const u8,
    pl: usize,
    given: *const u8,
    gl: usize,
    to: *mut u8,
    n: usize,
) -> i64 {
    write(judge::read(from_raw_parts(p, pl), from_raw_parts(given, gl), n), to, n)
}

thread_local! {
    /// The owners of the last plan.
    static KEPT: RefCell<(Vec<u8>, Vec<u16>)> = const { RefCell::new((vec![], vec![])) };
}

unsafe extern "C" fn owner(plan: *const u8, length: usize, s: usize, k: usize, port: usize) -> i64 {
    let bytes = from_raw_parts(plan, length);
    let cell = match judge::check(bytes) {
        Ok(plan) => plan.cell,
        Err(refusal) => return -i64::from(refusal),
    };
    if s >= cell.symbols() || k >= cell.subcarriers() || port >= cell.ports {
        return -8;
    }
    KEPT.with_borrow_mut(|(plan, owners)| {
        if plan != bytes {
            (*plan, *owners) = (bytes.to_vec(), judge::owner_numbers(bytes).expect("an accepted plan"));
        }
        i64::from(owners[s * cell.subcarriers() + k])
    })
}

unsafe extern "C" fn count(plan: *const u8, length: usize, kind: usize) -> i64 {
    let counts = judge::counts(from_raw_parts(plan, length));
    number(counts, |counts| counts.get(kind).copied().unwrap_or(0))
}

unsafe extern "C" fn sample_kind(unit_byte: u8, i: u8, j: u8) -> i64 {
    sample_numbers(unit_byte, i, j)[0]
}

unsafe extern "C" fn sample_i(unit_byte: u8, i: u8, j: u8) -> i64 {
    sample_numbers(unit_byte, i, j)[1]
}

unsafe extern "C" fn sample_j(unit_byte: u8, i: u8, j: u8) -> i64 {
    sample_numbers(unit_byte, i, j)[2]
}

const RIGHT: Library =
    Library { check, grid_len, payload_len, build, read, owner, count, sample_kind, sample_i, sample_j };

/// What the first cases of a section find.
fn found(library: &Library, section: &str, cases: u64) -> Found {
    named(section).expect("a section").cases(library, 1, 0..cases)
}

/// The first difference that a section finds contains this text.
fn caught(library: Library, section: &str, cases: u64, text: &str) {
    caught_among(library, section, 0..cases, text);
}

/// The first difference that these cases of a section find contains this text.
fn caught_among(library: Library, section: &str, cases: Range<u64>, text: &str) {
    let found = named(section).expect("a section").cases(&library, 1, cases);
    assert!(found.differences > 0, "nothing found, {text} expected");
    let told = found.text(section, 1);
    assert!(told.contains(text), "{text} expected, found:\n{told}");
}

#[test]
fn the_judge_agrees_with_itself() {
    for section in &SECTIONS {
        let cases = match section.name {
            "samples" => 70_000,
            "owners" => 8,
            _ => 400,
        };
        let found = found(&RIGHT, section.name, cases);
        assert_eq!((found.cases, found.differences), (cases, 0), "{}", found.text(section.name, 1));
    }
}

/// The same for one thread and for several.
#[test]
fn the_number_of_threads_does_not_matter() {
    unsafe extern "C" fn wrong(plan: *const u8, length: usize) -> i64 {
        payload_len(plan, length) + i64::from(length % 7 == 1)
    }
    let library = Library { payload_len: wrong, ..RIGHT };
    let section = named("refusals").expect("a section");
    let (one, several) = (section.cases(&library, 5, 0..900), section.first(&library, 5, 900, |_| ()));
    assert!(one.differences > 10);
    assert_eq!(one.differences, several.differences);
    assert_eq!(one.answers.text(), several.answers.text());
    assert_eq!(one.text("refusals", 5), several.text("refusals", 5));
}

#[test]
fn every_refusal_is_expected() {
    let (refusals, grids) = (found(&RIGHT, "refusals", 1500), found(&RIGHT, "grids", 400));
    for refusal in [1, 2, 3, 4, 5, 6, 7, 8, 10, 11, 12, 13, 18] {
        assert!(refusals.answers.refused(refusal) > 20, "{}", refusals.answers.text());
    }
    assert!(refusals.answers.accepted() > 1500);
    assert!(grids.answers.accepted() > 80 && grids.answers.refused(13) > 80);
}

#[test]
fn wrong_numbers() {
    unsafe extern "C" fn plus(plan: *const u8, length: usize) -> i64 {
        check(plan, length).abs()
    }
    caught(Library { check: plus, ..RIGHT }, "refusals", 50, "check: expected -");

    unsafe extern "C" fn wrapped(plan: *const u8, length: usize, s: usize, k: usize, port: usize) -> i64 {
        owner(plan, length, s as u32 as usize, k, port)
    }
    caught(Library { owner: wrapped, ..RIGHT }, "owners", 1, "expected -8");

    unsafe extern "C" fn one_place(plan: *const u8, length: usize, s: usize, k: usize, port: usize) -> i64 {
        owner(plan, length, s, k, port) + i64::from((s, k) == (5, 50))
    }
    caught(Library { owner: one_place, ..RIGHT }, "owners", 1, "owner of s 5, k 50");

    unsafe extern "C" fn kinds(plan: *const u8, length: usize, kind: usize) -> i64 {
        count(plan, length, kind % (1 << 32))
    }
    caught(Library { count: kinds, ..RIGHT }, "owners", 1, "count of kind 4294967296");

    unsafe extern "C" fn minus_zero(unit_byte: u8, i: u8, j: u8) -> i64 {
        sample_j(unit_byte, i, j) | if (unit_byte, j) == (1, 0) { 1 << 31 } else { 0 }
    }
    caught(Library { sample_j: minus_zero, ..RIGHT }, "samples", 70_000, "80000000");

    unsafe extern "C" fn counted(
        p: *const u8,
        pl: usize,
        given: *const u8,
        gl: usize,
        to: *mut u8,
        n: usize,
    ) -> i64 {
        2 * build(p, pl, given, gl, to, n)
    }
    caught(Library { build: counted, ..RIGHT }, "builds", 3, "build: expected");
}

/// A call that does as it should, and then changes a byte: of the buffer to fill or of those given.
macro_rules! spoils {
    ($name:ident, $right:ident, |$answer:ident, $plan:ident, $given:ident, $to:ident, $n:ident| $spoil:expr) => {
        unsafe extern "C" fn $name(
            $plan: *const u8,
            plan_length: usize,
            $given: *const u8,
            given_length: usize,
            $to: *mut u8,
            $n: usize,
        ) -> i64 {
            let $answer = $right($plan, plan_length, $given, given_length, $to, $n);
            $spoil;
            $answer
        }
    };
}

#[test]
fn wrong_bytes() {
    spoils!(level, build, |answer, _p, _g, to, n| if answer > 0 {
        *to.add(n / 2 + 1) ^= 0xFE
    });
    caught(Library { build: level, ..RIGHT }, "builds", 8, "grid: 1 of ");

    spoils!(behind, build, |answer, _p, _g, to, n| if answer >= 0 {
        *to.add(n) = 0
    });
    caught(Library { build: behind, ..RIGHT }, "builds", 2, "guard behind the grid: 1 of ");

    spoils!(before, read, |answer, _p, _g, to, _n| if answer >= 0 && !to.is_null() {
        *to.sub(1) = 0
    });
    caught(Library { read: before, ..RIGHT }, "builds", 2, "guard before the payload: 1 of ");

    spoils!(on_refusal, build, |answer, _p, _g, to, _n| if answer == -12 {
        *to = 0
    });
    caught(Library { build: on_refusal, ..RIGHT }, "refusals", 400, "build, answer -12: grid: 1 of ");

    spoils!(first_half, read, |answer, _p, _g, to, n| if answer == -13 && n > 0 {
        *to.add(n / 2) ^= 0x80
    });
    caught(Library { read: first_half, ..RIGHT }, "grids", 40, "read, answer -13: payload: 1 of ");

    spoils!(given, build, |_answer, _p, given, _t, _n| if !given.is_null() {
        *given.cast_mut() ^= 1
    });
    caught(Library { build: given, ..RIGHT }, "builds", 8, "payload: 1 of ");

    spoils!(plan, read, |_answer, plan, _g, _t, _n| if !plan.is_null() {
        *plan.cast_mut() ^= 1
    });
    caught(Library { read: plan, ..RIGHT }, "grids", 1, "plan: 1 of ");
}

/// The samples of a unit byte.
fn samples_of(unit_byte: u64) -> Range<u64> {
    unit_byte << 16..(unit_byte + 1) << 16
}

/// The greatest level of one unit in another, and a gain by the byte in place of the unit.
#[test]
fn wrong_samples_of_256qam() {
    unsafe extern "C" fn to_fifteen(unit_byte: u8, i: u8, j: u8) -> i64 {
        sample_kind(if unit_byte == 84 { 255 } else { unit_byte }, i, j)
    }
    let library = Library { sample_kind: to_fifteen, ..RIGHT };
    caught_among(library, "samples", samples_of(84), "sample of 54 00 09");

    unsafe extern "C" fn to_eight(unit_byte: u8, i: u8, j: u8) -> i64 {
        sample_kind(if unit_byte == 170 { 84 } else { unit_byte }, i, j)
    }
    let library = Library { sample_kind: to_eight, ..RIGHT };
    caught_among(library, "samples", samples_of(170), "sample of aa 00 09");

    unsafe extern "C" fn gain_of_the_byte(unit_byte: u8, i: u8, j: u8) -> i64 {
        match sample_numbers(unit_byte, i, j) {
            [2, _, _] if unit_byte == 255 => i64::from((f32::from(i as i8) / 255f32.sqrt()).to_bits()),
            [_, i, _] => i,
        }
    }
    let library = Library { sample_i: gain_of_the_byte, ..RIGHT };
    caught_among(library, "samples", samples_of(255), "sample of ff 01 00");
}

/// The modulation of seven bits taken for that of eight.
#[test]
fn wrong_modulation() {
    unsafe extern "C" fn seven(plan: *const u8, length: usize) -> i64 {
        let mut bytes = from_raw_parts(plan, length).to_vec();
        for at in 3..length {
            if bytes[at - 3] == 0x30 && bytes[at] == 7 {
                bytes[at] = 8;
            }
        }
        number(judge::check(&bytes), |_| 0)
    }
    caught(Library { check: seven, ..RIGHT }, "refusals", 2000, "check: expected -6, found 0");
}

/// The levels I and J of a grid's elements in the units of 256QAM.
fn levels_of_256qam(grid: &mut [u8]) -> impl Iterator<Item = &mut u8> {
    let elements = grid.chunks_mut(3).filter(|element| [170, 255].contains(&element[0]));
    elements.flat_map(|element| element[1..].iter_mut())
}

/// A wrong byte for unit 340, two levels exchanged, and a reader that takes 17 for 15.
#[test]
fn wrong_elements_of_256qam() {
    spoils!(remainder, build, |answer, _p, _g, to, n| if answer > 0 {
        let units = from_raw_parts_mut(to, n).iter_mut().step_by(3);
        units.filter(|unit| **unit == 255).for_each(|unit| *unit = 84)
    });
    caught(Library { build: remainder, ..RIGHT }, "builds", 40, "build, answer ");

    spoils!(exchanged, build, |answer, _p, _g, to, n| if answer > 0 {
        let levels = levels_of_256qam(from_raw_parts_mut(to, n));
        levels.filter(|level| [13, 15].contains(*level)).for_each(|level| *level ^= 2)
    });
    caught(Library { build: exchanged, ..RIGHT }, "builds", 40, "build, answer ");

    unsafe extern "C" fn lenient(
        p: *const u8,
        pl: usize,
        given: *const u8,
        gl: usize,
        to: *mut u8,
        n: usize,
    ) -> i64 {
        let mut grid = from_raw_parts(given, gl).to_vec();
        levels_of_256qam(&mut grid).filter(|level| **level == 17).for_each(|level| *level = 15);
        write(judge::read(from_raw_parts(p, pl), &grid, n), to, n)
    }
    caught(Library { read: lenient, ..RIGHT }, "grids", 2000, "Beyond");
}

/// A plan with its control region `BY` symbols longer where the cell has `N` blocks; a layout goes by the region alone.
fn moved<const N: usize, const BY: isize>(bytes: &[u8]) -> Result<Plan, Refusal> {
    let mut plan = judge::check(bytes)?;
    if plan.cell.blocks == N {
        plan.frame.cfi = plan.frame.cfi.checked_add_signed(BY).expect("a region of one symbol or more");
    }
    Ok(plan)
}

unsafe extern "C" fn payload_len_moved<const N: usize, const BY: isize>(
    plan: *const u8,
    length: usize,
) -> i64 {
    let plan = moved::<N, BY>(from_raw_parts(plan, length));
    number(plan, |plan| Sections::new(&plan, &layout(&plan)).length)
}

unsafe extern "C" fn count_moved<const N: usize, const BY: isize>(
    plan: *const u8,
    length: usize,
    kind: usize,
) -> i64 {
    let plan = moved::<N, BY>(from_raw_parts(plan, length));
    number(plan, |plan| layout(&plan).counts().get(kind).copied().unwrap_or(0))
}

unsafe extern "C" fn owner_moved<const N: usize, const BY: isize>(
    plan: *const u8,
    length: usize,
    s: usize,
    k: usize,
    port: usize,
) -> i64 {
    match (owner(plan, length, s, k, port), moved::<N, BY>(from_raw_parts(plan, length))) {
        (0.., Ok(plan)) if plan.cell.blocks == N => i64::from(layout(&plan).owner(Place { s, k }).number()),
        (right, _) => right,
    }
}

/// A control region of CFI symbols at six blocks, and one of CFI + 1 at fifteen.
#[test]
fn wrong_control_regions() {
    fn each_caught<const N: usize, const BY: isize>() {
        let library = Library { payload_len: payload_len_moved::<N, BY>, ..RIGHT };
        caught(library, "builds", 40, "payload_len: expected");
        caught(library, "refusals", 40, "payload_len: expected");
        let library = Library { count: count_moved::<N, BY>, ..RIGHT };
        caught(library, "owners", 20, "count of kind 6: expected");
        let library = Library { owner: owner_moved::<N, BY>, ..RIGHT };
        caught(library, "owners", 20, "owner of s ");
    }
    each_caught::<6, -1>();
    each_caught::<15, 1>();
}

/// PCFICH of six blocks with the codeword of the CFI that its control region would have elsewhere.
#[test]
fn wrong_codeword_at_six_blocks() {
    /// The grid with the format indicator of the next CFI, where there is one.
    fn next_codeword(bytes: &[u8], grid: &mut [u8]) {
        let plan = judge::check(bytes).expect("an accepted plan");
        if plan.cell.blocks != 6 || plan.frame.cfi == 3 {
            return;
        }
        // CELL or CELLX, FRAME, whose last field is the CFI, END.
        let end = if bytes[0] == CELLX { 13 } else { 12 };
        let mut other = [&bytes[..end], &[0]].concat();
        other[end - 1] += 1;
        let payload = vec![0; judge::payload_length(&other).expect("an accepted plan")];
        let (other, _) = judge::build(&other, &payload, grid.len()).expect("an accepted payload");
        for place in layout(&plan).pcfich {
            for port in 0..plan.cell.ports {
                let at = element_at(plan.cell.symbols(), plan.cell.subcarriers(), port, place);
                grid[at..at + 3].copy_from_slice(&other[at..at + 3]);
            }
        }
    }
    unsafe extern "C" fn wrong(
        p: *const u8,
        pl: usize,
        given: *const u8,
        gl: usize,
        to: *mut u8,
        n: usize,
    ) -> i64 {
        let answer = build(p, pl, given, gl, to, n);
        if answer >= 0 {
            next_codeword(from_raw_parts(p, pl), from_raw_parts_mut(to, n));
        }
        answer
    }
    caught(Library { build: wrong, ..RIGHT }, "builds", 40, "grid: ");
}

/// Where a fault puts a PHICH unit's twelve places in a cell of the extended duration.
type Misplaced = fn(&Cell, usize) -> Vec<Place>;

/// The unit's places with a number for each quad's group, of h groups; symbol 0 is as it should be.
fn numbered(cell: &Cell, unit: usize, number: impl Fn(usize) -> usize) -> Vec<Place> {
    let mut places = phich_places(cell, unit);
    places.truncate(4);
    places.extend((1..3).flat_map(|i| places_of_group(cell, i, number(i))));
    places
}

/// h_0 for every symbol.
fn by_first_count(cell: &Cell, unit: usize) -> Vec<Place> {
    let h = 2 * cell.blocks - 4;
    numbered(cell, unit, |i| (cell.identity + unit + i * h / 3) % h)
}

/// Groups of six subcarriers in symbol 1, whatever the number of ports.
fn by_groups_of_six(cell: &Cell, unit: usize) -> Vec<Place> {
    phich_places(&Cell { ports: 4, ..*cell }, unit)
}

/// The identity in the place of floor(C×h_i/h_0).
fn by_identity(cell: &Cell, unit: usize) -> Vec<Place> {
    let number = |i: usize| (cell.identity + unit + i * groups(cell, i) / 3) % groups(cell, i);
    numbered(cell, unit, number)
}

const MISPLACED: [Misplaced; 3] = [by_first_count, by_groups_of_six, by_identity];

unsafe extern "C" fn owner_misplaced<const F: usize>(
    plan: *const u8,
    length: usize,
    s: usize,
    k: usize,
    port: usize,
) -> i64 {
    let right = owner(plan, length, s, k, port);
    let cell = match judge::check(from_raw_parts(plan, length)) {
        Ok(plan) if plan.cell.extended_phich && right >= 0 && s < 3 => plan.cell,
        _ => return right,
    };
    let mut units = 0..cell.phich_units();
    match units.find(|unit| MISPLACED[F](&cell, *unit).contains(&Place { s, k })) {
        Some(unit) => 64 + unit as i64,
        None if (64..89).contains(&right) => 513,
        None => right,
    }
}

/// The grid with its PHICH units where a fault puts them.
fn misplace<const F: usize>(cell: &Cell, grid: &mut [u8]) {
    let before = grid.to_vec();
    let units = || 0..cell.phich_units();
    for port in 0..cell.ports {
        let at = |place: &Place| element_at(cell.symbols(), cell.subcarriers(), port, *place);
        for place in units().flat_map(|unit| phich_places(cell, unit)) {
            grid[at(&place)..][..3].fill(0);
        }
        for unit in units() {
            for (from, to) in phich_places(cell, unit).iter().zip(MISPLACED[F](cell, unit)) {
                grid[at(&to)..][..3].copy_from_slice(&before[at(from)..][..3]);
            }
        }
    }
}

unsafe extern "C" fn build_misplaced<const F: usize>(
    p: *const u8,
    pl: usize,
    given: *const u8,
    gl: usize,
    to: *mut u8,
    n: usize,
) -> i64 {
    let answer = build(p, pl, given, gl, to, n);
    match judge::check(from_raw_parts(p, pl)) {
        Ok(plan) if plan.cell.extended_phich && answer >= 0 => {
            misplace::<F>(&plan.cell, from_raw_parts_mut(to, n));
        }
        _ => {}
    }
    answer
}

/// The extended PHICH duration with its quads in other groups.
#[test]
fn wrong_groups_of_phich() {
    fn each_caught<const F: usize>() {
        let library = Library { owner: owner_misplaced::<F>, ..RIGHT };
        caught(library, "owners", 20, "owner of s ");
        let library = Library { build: build_misplaced::<F>, ..RIGHT };
        caught(library, "builds", 40, "grid: ");
    }
    each_caught::<0>();
    each_caught::<1>();
    each_caught::<2>();
}

/// A control region of three symbols at six blocks taken for one of two, since its CFI is 2.
#[test]
fn wrong_region_of_phich() {
    unsafe extern "C" fn by_cfi(plan: *const u8, length: usize) -> i64 {
        match judge::check(from_raw_parts(plan, length)) {
            Ok(plan) if plan.cell.extended_phich && plan.frame.cfi < 3 => -18,
            answer => number(answer, |_| 0),
        }
    }
    let library = Library { check: by_cfi, ..RIGHT };
    caught(library, "builds", 200, "check: expected 0, found -18");
    caught(library, "refusals", 2000, "check: expected 0, found -18");
}

/// The answer to a plan whose CELL has other blocks than it says.
unsafe fn check_with(plan: *const u8, length: usize, said: u8, taken: u8) -> i64 {
    let mut bytes = from_raw_parts(plan, length).to_vec();
    if length > 3 && bytes[3] == said {
        bytes[3] = taken;
    }
    number(judge::check(&bytes), |_| 0)
}

/// Seven blocks taken for six, and six refused.
#[test]
fn wrong_widths() {
    unsafe extern "C" fn seven(plan: *const u8, length: usize) -> i64 {
        check_with(plan, length, 7, 6)
    }
    caught(Library { check: seven, ..RIGHT }, "refusals", 2000, "check: expected -3, found 0");

    unsafe extern "C" fn six(plan: *const u8, length: usize) -> i64 {
        check_with(plan, length, 6, 5)
    }
    caught(Library { check: six, ..RIGHT }, "builds", 40, "check: expected 0, found -3");
}

/// One reader takes any grid, one takes none.
#[test]
fn wrong_readers() {
    spoils!(refused, read, |answer, _p, _g, _t, _n| if answer >= 0 {
        return -13;
    });
    caught(Library { read: refused, ..RIGHT }, "grids", 80, "found -13");

    spoils!(taken, read, |answer, _p, _g, _t, _n| if answer == -13 {
        return 0;
    });
    caught(Library { read: taken, ..RIGHT }, "grids", 80, "read: expected -13, found 0");
}
