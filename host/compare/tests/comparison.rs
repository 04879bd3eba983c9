//! The recorded cases, a few generated calls, and runs without end. `compare short` and `compare full` do it at scale.
use calls::random::Random;
use calls::shapes;
use calls::Call;
use compare::lending::settings;
use compare::tally::{at_depth, recorded};
use hoardmagpie::{reconstruct, Point};
use oracle::PoissonConfig;
use std::path::Path;

#[test]
fn recorded_cases() {
    let tally = recorded(&Path::new(env!("CARGO_MANIFEST_DIR")).join("../../oracle/cases")).unwrap();
    assert_eq!((tally.calls(), tally.differ), (112, 0));
}

#[test]
fn generated_calls() {
    for (depth, count) in [(3, 300), (4, 40), (5, 10)] {
        let tally = at_depth(depth, count, 0xC0FFEE);
        assert_eq!(tally.differ, 0, "{tally}");
    }
}

fn points(flat: &[f32]) -> Vec<Point> {
    flat.as_chunks().0.to_vec()
}

/// 01 lets NaN stop nothing, so a run that turns NaN goes on for the whole cap; the library leaves it as soon as no step can
/// change anything. The oracle is given a cap that it can reach.
#[test]
fn a_run_that_turns_nan_ends_under_every_cap() {
    let flat = shapes::placed(&shapes::ball(&mut Random(1), 30, 0.0), 1e-44, [0.0; 3]);
    for depth in [3, 4, 5] {
        let capped = |max_iterations| PoissonConfig { depth, max_iterations, ..PoissonConfig::default() };
        let want = Call::new(flat.clone(), capped(30)).oracle();
        assert!(want.seen.field.iter().all(|v| v.is_nan()));
        let got = reconstruct(&points(&flat), &settings(&capped(usize::MAX)));
        assert_eq!(got.unwrap_err().number(), want.number);
        let field = hoardmagpie::field(&points(&flat), &settings(&capped(usize::MAX))).unwrap();
        assert!(field.values.iter().all(|v| v.to_bits() == 0x7FC0_0000));
    }
}

/// A finite run ends by itself even if no residual is small enough.
#[test]
fn a_finite_run_ends_under_every_cap() {
    let flat = shapes::placed(&shapes::ring(&mut Random(2), 60, 0.35), 10.0, [0.0; 3]);
    for tolerance in [0.0, -1.0, f64::NAN] {
        let config = PoissonConfig { depth: 3, tolerance, max_iterations: usize::MAX, ..PoissonConfig::default() };
        let want = Call::new(flat.clone(), config.clone()).oracle();
        let got = reconstruct(&points(&flat), &settings(&config)).unwrap();
        assert_eq!((got.vertices, got.faces), (want.vertices, want.faces));
    }
}
