//! A few cases, spread evenly over the families and over each family.

use std::collections::BTreeMap;

use crate::{Case, Family, Size, cases};

/// `count` of these families' cases that `keep` wants.
pub fn spread_over(
    families: &'static [Family],
    count: usize,
    keep: fn(&Case) -> bool,
) -> impl Iterator<Item = Case> {
    let wanted = move || cases(families, Size::Ci).filter(keep);
    let mut all = BTreeMap::new();
    for case in wanted() {
        *all.entry(case.family).or_insert(0) += 1;
    }
    let shares = shares(&all, count);
    let mut seen = BTreeMap::new();
    wanted().filter(move |case| {
        let index = seen.entry(case.family).or_insert(0);
        *index += 1;
        chosen(*index - 1, all[&case.family], shares[&case.family])
    })
}

/// Equal shares; what a small family cannot use goes to the larger ones.
fn shares(all: &BTreeMap<Family, usize>, count: usize) -> BTreeMap<Family, usize> {
    let mut families: Vec<(Family, usize)> =
        all.iter().map(|(&family, &has)| (family, has)).collect();
    families.sort_by_key(|&(_, has)| has);
    let (mut left, mut waiting) = (count, families.len());
    let mut shares = BTreeMap::new();
    for (family, has) in families {
        let share = has.min(left / waiting);
        shares.insert(family, share);
        left -= share;
        waiting -= 1;
    }
    shares
}

/// Picks `share` of `all` places at equal distances.
fn chosen(index: usize, all: usize, share: usize) -> bool {
    index * share / all != (index + 1) * share / all
}
