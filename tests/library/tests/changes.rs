//! The changes of grids: what the judge makes of each sort.

use judge::generate::Random;
use library::grids::{Prepared, Sort, OF_ONE_PLAN, SORTS};

/// How many of the grids that a sort of change makes are other grids, and how many of these the judge reads.
fn others_and_read(sort: Sort) -> (usize, usize) {
    let (mut others, mut read) = (0, 0);
    for plan in 0..20 {
        let prepared = Prepared::new(3, plan * OF_ONE_PLAN);
        for case in 0..20 {
            let mut random = Random::of_case(plan, case);
            let changes = prepared.changes(&mut random, sort);
            let grid = prepared.changed(&changes);
            if grid != prepared.changed(&[]) {
                others += 1;
                read += usize::from(prepared.read(&grid).is_ok());
            }
        }
    }
    (others, read)
}

#[test]
fn what_is_changed_is_read_or_refused() {
    for sort in SORTS {
        let (others, read) = others_and_read(sort);
        assert!(others > 100, "{sort:?} changes {others} of 400 grids");
        match sort {
            // All but PCFICH's symbols; a level of another modulation may be one of the channel's own.
            Sort::Legal | Sort::OtherChannel => assert!(2 * read > others, "{sort:?}: {read} of {others}"),
            Sort::Beyond | Sort::Unit | Sort::Silent => assert_eq!(read, 0, "{sort:?}"),
            _ => assert!(read < others, "{sort:?}: {read} of {others}"),
        }
    }
}
