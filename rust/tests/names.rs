//! Planners and editions by their names, and the errors of names that nothing has.

use balduqen::*;
use std::error::Error;
use std::fmt::Debug;
use std::str::FromStr;

/// The error of a name, as whoever reads it sees it.
fn error_of<T: FromStr<Err: Error + Clone + Eq> + Debug>(name: &str) -> String {
    let error = name.parse::<T>().expect_err(name);
    assert_eq!(name.parse::<T>().expect_err(name), error.clone());
    error.to_string()
}

#[test]
fn every_name_is_read_back() {
    for planner in Planner::ALL {
        assert_eq!(planner.name().parse(), Ok(planner));
        assert_eq!(planner.to_string(), planner.name());
    }
    for edition in Edition::ALL {
        assert_eq!(edition.number().to_string().parse(), Ok(edition));
    }
    assert_eq!("1".parse(), Ok(Edition::First));
    assert_eq!("2".parse(), Ok(Edition::Second));
}

#[test]
fn unknown_names_are_quoted() {
    for name in ["greedy", "", "Best", " best", "depth first"] {
        let wanted = format!("there is no planner '{name}'");
        assert_eq!(error_of::<Planner>(name), wanted);
    }
    for name in ["3", "", "0", "01", "+1", " 1", "one"] {
        let wanted = format!("there is no edition '{name}'");
        assert_eq!(error_of::<Edition>(name), wanted);
    }
    assert_ne!("3".parse::<Edition>(), "4".parse::<Edition>());
    // No control sign reaches a terminal.
    let wanted = "there is no planner 'best\\n\\u{1b}[31m'";
    assert_eq!(error_of::<Planner>("best\n\u{1b}[31m"), wanted);
}

/// A name is quoted up to 60 signs, be they of one byte or of more.
#[test]
fn long_names_are_cut() {
    for sign in ["a", "\u{e9}", "\u{1f333}"] {
        let (whole, longer) = (sign.repeat(60), sign.repeat(61));
        let said = [&whole, &longer].map(|name| error_of::<Planner>(name));
        let wanted = [
            format!("there is no planner '{whole}'"),
            format!("there is no planner '{whole}..'"),
        ];
        assert_eq!(said, wanted);
        let said = error_of::<Edition>(&sign.repeat(1_000_000));
        assert_eq!(said, format!("there is no edition '{whole}..'"));
    }
    let error = "a".repeat(1_000_000).parse::<Planner>().expect_err("a's");
    assert!(format!("{error:?}").len() < 200);
}
