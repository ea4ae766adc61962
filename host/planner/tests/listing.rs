//! The listing of worked areas, and of areas that hold anything.

mod worked;

use planner::{LEAST_AREA, Plan};
use worked::{STATEMENT, WORKED, bytes};

#[test]
fn worked_areas_are_printed_as_the_rules_print_them() {
    for worked in &WORKED {
        let printed = worked.listing(&worked.area()).expect(worked.statement);
        assert_eq!(String::from_utf8_lossy(&printed), String::from_utf8_lossy(&bytes(worked.printed)));
        // The numbers end with the area, or nothing but zeros follows.
        assert_eq!(worked.listing(worked.numbers), Ok(printed));
    }
}

/// Each number counts: any other in its place is a fault, or another listing. Addresses are left as they are, since the
/// same bytes may stand at two of them.
#[test]
fn another_number_is_a_fault_or_another_listing() {
    for worked in &WORKED {
        let printed = bytes(worked.printed);
        for place in 0..worked.numbers.len() + 10 {
            let mut area = worked.area();
            let was = area[place];
            if (STATEMENT..STATEMENT + worked.statement.len() as u32).contains(&was) {
                continue;
            }
            for change in [1, 2, 3, 7, STATEMENT, 1 << 31, u32::MAX] {
                for other in [was.wrapping_add(change), was ^ change] {
                    area[place] = other;
                    if let Ok(listing) = worked.listing(&area) {
                        assert_ne!(listing, printed, "{} with {other} at {place}", worked.statement);
                    }
                }
            }
        }
    }
}

#[test]
fn a_plan_that_is_cut_off_is_a_fault() {
    for worked in &WORKED {
        for length in 0..worked.numbers.len() {
            assert!(worked.listing(&worked.numbers[..length]).is_err(), "{length} numbers");
        }
    }
}

#[test]
fn no_plan_is_a_fault() {
    let worked = &WORKED[0];
    let fault = |area: &[u32]| worked.listing(area).expect_err("no plan").to_string();
    assert_eq!(fault(&[0; LEAST_AREA]), "number 0 of the area: no plan");
    assert_eq!(fault(&[u32::MAX; LEAST_AREA]), "number 0 of the area: no plan");
    assert_eq!(fault(&[1; LEAST_AREA]), "number 1 of the area: not 0");
    assert_eq!(
        fault(&[1, 1, u32::MAX, 0, 6, 6]),
        "number 2 of the area: more cells than a statement can have"
    );
    assert_eq!(
        fault(&[1, 1, 0, u32::MAX, 6, 6]),
        "number 3 of the area: more nodes than a statement can have"
    );
    assert_eq!(fault(&[1, 3, 0, 0, 6, 5]), "number 4 of the area: behind the end of the plan");
    let mut noise = worked.area();
    noise[LEAST_AREA - 1] = 1;
    assert_eq!(fault(&noise), "number 16383 of the area: not 0");
}

/// Areas with any number of their numbers exchanged for any others are printed or a fault, and nothing else.
#[test]
fn any_area_is_taken() {
    let mut state = 1u64;
    let mut next = |below: usize| {
        state = state.wrapping_mul(6_364_136_223_846_793_005).wrapping_add(1_442_695_040_888_963_407);
        (state >> 33) as usize % below
    };
    let mut printed = 0;
    for _ in 0..200_000 {
        let worked = &WORKED[next(WORKED.len())];
        let mut area = worked.numbers.to_vec();
        for _ in 0..next(4) {
            let place = next(area.len());
            area[place] = match next(4) {
                0 => area[next(area.len())],
                1 => next(30) as u32,
                2 => STATEMENT + next(100) as u32,
                _ => u32::MAX - next(5) as u32,
            };
        }
        let (catalog, statement) = (bytes(worked.catalog), bytes(worked.statement));
        let Ok(plan) = Plan::check(&catalog, &statement, &area) else { continue };
        // No use of a plan that was checked panics.
        assert!(plan.listing().starts_with(b"plan\t"));
        assert!(!plan.to_string().is_empty() && !plan.tree().to_string().is_empty());
        printed += 1;
    }
    assert!(printed > 30_000, "{printed} areas were printed");
}
