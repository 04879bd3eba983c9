//! Makes the published text with one substitution at a time.
include!("../patched/substitutions.rs");

/// The dot product in halves of halves, as rayon adds on two threads when neither takes work from the other.
const IN_PARTS: Replacement = (DOT_ORDER.0, "    crate::sum_in_parts(a, b, 2)\n");

/// The brute-force search of the spacing, infinite distances left out.
const FINITE_SEARCH: Replacement =
    (SEARCH.0, "crate::two_nearest(&points, p).into_iter().filter(|(_, d)| d.is_finite())");

/// The brute-force search in trimming, without "at most".
const SEARCH_IN_TRIM: Replacement = (AT_MOST.0, "points.iter().any(|p| crate::squared_distance(p, &c) < limit)");

fn main() {
    for file in [PUBLISHED, "../patched/substitutions.rs", "build.rs"] {
        println!("cargo:rerun-if-changed={file}");
    }
    leave("published.rs", patched(&[]));
    leave("exponential.rs", patched(&[EXPONENTIAL]));
    leave("in_parts.rs", patched(&[IN_PARTS]));
    leave("search.rs", patched(&[SEARCH, SEARCH_IN_TRIM]));
    leave("finite_search.rs", patched(&[FINITE_SEARCH, SEARCH_IN_TRIM]));
    leave("at_most.rs", patched(&[AT_MOST]));
}
