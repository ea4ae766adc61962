//! The static libraries that were linked are those that the sources give.

use judge::stale::check;

#[test]
#[cfg_attr(not(planning), ignore = "the planner's library is not linked")]
fn the_planner_is_not_stale() {
    assert_eq!(check("planner"), Ok(()));
}

#[test]
#[cfg_attr(not(reading), ignore = "`tools/build reader_host` was not run")]
fn the_reading_is_not_stale() {
    assert_eq!(check("reader_host"), Ok(()));
}

#[test]
#[cfg_attr(not(operators), ignore = "`tools/build value_host` was not run")]
fn the_operators_are_not_stale() {
    assert_eq!(check("value_host"), Ok(()));
}
