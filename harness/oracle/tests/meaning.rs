//! What proof and disproof of an Unknown mean, worked out a second time on the trees where the original's searches
//! ended: every set of open leaves is tried, the smaller ones first, until all leaves of one, taken as True (or as
//! False) and the rest left open, make the root that. Each time the whole tree is evaluated with three values. Of the
//! nodes' numbers only the 0 of a solved node is used, for its verdict. Trees with many open leaves are passed over.
//! Searches are tried with staying on a line off, and with margins.

use calls::line::Verdict;
use calls::record::LENGTH;
use calls::table::search_refusal;
use calls::{Call, Fields, Position, Stay};
use oracle::generate::{ending, late, Random};
use oracle::{legal_moves, search_and_tree, Tree};
use std::collections::{BTreeMap, BTreeSet};

/// The most open leaves of a tree whose sets are all tried.
const MOST_LEAVES: u32 = 16;
/// More than any of these searches uses.
const AMPLE: u64 = 3_276;

/// A set of open leaves. They are counted from the tree's first to its last, and bit i is leaf i.
type Set = u128;

/// The value of a tree with the leaves of a set taken as `taken` and the others left open; none is open. `next` is the
/// number of the tree's first leaf, and then that of the first leaf after it.
fn value(tree: &Tree, set: Set, taken: bool, next: &mut u32) -> Option<bool> {
    match tree {
        Tree::Solved(value) => Some(*value),
        Tree::Open => {
            let leaf = *next;
            *next += 1;
            (set >> leaf & 1 == 1).then_some(taken)
        }
        Tree::Expanded { own, children, .. } => {
            let (mut one, mut all) = (false, true);
            for child in children {
                let value = value(child, set, taken, next);
                one |= value == Some(*own);
                all &= value == Some(!own);
            }
            match (one, all) {
                (true, _) => Some(*own),
                (_, true) => Some(!own),
                _ => None,
            }
        }
    }
}

/// The root's value with the leaves of a set taken as `taken`.
fn root(tree: &Tree, set: Set, taken: bool) -> Option<bool> {
    value(tree, set, taken, &mut 0)
}

/// Of the smallest size there is, all sets whose leaves, taken as `taken`, make the root that.
fn smallest(tree: &Tree, taken: bool) -> Vec<Set> {
    let leaves = leaves(tree);
    let of_size = |size| (0..1 << leaves).filter(move |set: &Set| set.count_ones() == size);
    let settling = |size| of_size(size).filter(|set| root(tree, *set, taken) == Some(taken)).collect();
    (0..=leaves).map(settling).find(|sets: &Vec<Set>| !sets.is_empty()).expect("all leaves together settle the root")
}

/// The size of sets that all have the same.
fn size(sets: &[Set]) -> u64 {
    sets[0].count_ones().into()
}

/// All nodes of a tree.
fn nodes(tree: &Tree) -> Vec<&Tree> {
    let mut all = vec![tree];
    if let Tree::Expanded { children, .. } = tree {
        all.extend(children.iter().flat_map(nodes));
    }
    all
}

/// How many open leaves a tree has.
fn leaves(tree: &Tree) -> u32 {
    nodes(tree).into_iter().filter(|node| **node == Tree::Open).count() as u32
}

/// Whether the sides take turns all over the tree, beginning with the one that is named.
fn takes_turns(tree: &Tree, first: bool) -> bool {
    match tree {
        Tree::Expanded { own, children, .. } => {
            *own == first && children.iter().all(|child| takes_turns(child, !first))
        }
        _ => true,
    }
}

/// A search that ended as Unknown.
struct Ended {
    call: Call,
    record: [u8; LENGTH],
    rule: u64,
    stay: Stay,
    fields: Fields,
    tree: Tree,
    /// A search with the setting off would end with another.
    parts_from_off: bool,
}

/// None if the call is another one, refused, or answered with True or False.
fn ended(call: Call) -> Option<Ended> {
    let Call::Search { record, rule, pool, limit, budget, interval, stay } = &call else { return None };
    if search_refusal(record, *rule, *pool, *budget, *interval, *stay).is_some() {
        return None;
    }
    let record = record.as_slice().try_into().expect("it is accepted");
    let under = |stay| search_and_tree(&record, *rule, *pool, *limit, *budget, *interval, stay);
    let (fields, tree) = under(*stay);
    let (rule, stay, parts_from_off) = (*rule, *stay, tree != under(Stay::Off).1);
    (fields.verdict == Verdict::Unknown).then_some(Ended { call, record, rule, stay, fields, tree, parts_from_off })
}

/// Searches of one position, an ending or far on in play and often with few moves: of each rule some that the budget,
/// the pool or the limit stops soon. Each is there with the setting off and with a margin.
fn generated(random: &mut Random) -> Vec<Call> {
    let most = random.pick(&[3, 5, 81]);
    let record = loop {
        let record = if random.once_in(2) { ending(random) } else { late(random) }.write();
        if (1..=most).contains(&legal_moves(&record).len()) {
            break record.to_vec();
        }
    };
    let margin = Stay::of_256ths(random.aside().pick(&[0, 1, 64, 128, 256]));
    let mut searches = |number: u64| {
        let (pool, limit, budget, interval) = match number % 3 {
            0 => (AMPLE, u64::MAX, random.below(14), 10_000),
            1 => (1 + random.below(24), u64::MAX, 1_000, 10_000),
            _ => (AMPLE, random.below(20), 1_000, 1 + random.below(4)),
        };
        let (record, rule) = (|| record.clone(), number / 3 % 3);
        let with = |stay| Call::Search { record: record(), rule, pool, limit, budget, interval, stay };
        [Stay::Off, margin].map(with)
    };
    (0..9).flat_map(&mut searches).collect()
}

/// The searches of cases.txt and generated ones that ended as Unknown. A record, its rule, the setting and the number of
/// expansions decide the tree; each comes once for each cause.
fn trees() -> impl Iterator<Item = Ended> {
    let mut random = Random::new(1);
    let generated = (0..1_000).flat_map(move |_| generated(&mut random));
    let mut seen = BTreeSet::new();
    let all = oracle::cases::calls().chain(generated).filter_map(ended);
    all.filter(move |Ended { record, rule, stay, fields, .. }| {
        seen.insert((*record, *rule, stay.in_256ths(), fields.expanded, fields.cause))
    })
}

/// The leaves of a set, each as a set of its own.
fn each(set: Set) -> impl Iterator<Item = Set> {
    (0..Set::BITS).map(|leaf| 1 << leaf).filter(move |leaf| set & leaf != 0)
}

/// Whether a set needs each of its leaves: without it the others leave the root open.
fn needs_each_leaf(tree: &Tree, set: Set, taken: bool) -> bool {
    each(set).all(|leaf| root(tree, set & !leaf, taken).is_none())
}

#[test]
fn proof_and_disproof_are_the_sizes_of_the_smallest_sets() {
    let mut seen: BTreeMap<&str, usize> = BTreeMap::new();
    for ended in trees() {
        let Ended { call, fields, tree, .. } = &ended;
        assert!(nodes(tree).len() as u64 == fields.allocated - fields.freed && takes_turns(tree, true), "{}", call);
        if leaves(tree) > MOST_LEAVES {
            *seen.entry("a tree is passed over").or_default() += 1;
            continue;
        }
        let (proving, disproving) = (smallest(tree, true), smallest(tree, false));
        assert_eq!((size(&proving), size(&disproving)), (fields.proof, fields.disproof), "{}", call);
        assert!(proving.iter().all(|set| needs_each_leaf(tree, *set, true)), "{}", call);
        assert!(disproving.iter().all(|set| needs_each_leaf(tree, *set, false)), "{}", call);
        // Two sets without a common leaf would make the root True and False at once.
        assert!(proving.iter().all(|one| disproving.iter().all(|other| one & other != 0)), "{}", call);
        for (what, holds) in ended.tries() {
            *seen.entry(what).or_default() += usize::from(holds);
        }
    }
    assert!(seen["a tree is tried"] > 3_000 && seen.values().all(|times| *times > 50), "{:#?}", seen);
}

impl Ended {
    /// What a tree tries, and whether it does.
    fn tries(&self) -> Vec<(&'static str, bool)> {
        let Fields { proof, disproof, freed, expanded, cause, .. } = self.fields;
        let side = self.record[0] >> 7;
        let alone = self.tree == Tree::Open;
        let has = |value| nodes(&self.tree).contains(&&Tree::Solved(value));
        vec![
            ("a tree is tried", true),
            ("X moves at the root", side == 0),
            ("O moves at the root", side == 1),
            ("rule 0", self.rule == 0),
            ("rule 1", self.rule == 1),
            ("rule 2", self.rule == 2),
            ("the budget stopped it", cause == 1),
            ("the pool stopped it", cause == 2),
            ("the limit stopped it", cause == 3),
            ("the budget stopped it with the root as the one open leaf", cause == 1 && alone),
            ("the pool stopped it with the root as the one open leaf", cause == 2 && alone),
            ("the pool stopped it below the root", cause == 2 && expanded > 0),
            ("parts of it were freed", freed > 0),
            ("a node of it is proved", has(true)),
            ("a node of it is disproved", has(false)),
            ("proof is not 1", proof != 1),
            ("disproof is not 1", disproof != 1),
            ("neither is 1", proof != 1 && disproof != 1),
            ("both are over 2", proof > 2 && disproof > 2),
            ("margin 0", self.stay.in_256ths() == Some(0)),
            ("margin 1", self.stay.in_256ths() == Some(256)),
            ("another margin", self.stay.in_256ths().is_some_and(|number| number % 256 != 0)),
            ("the tree would be another one with the setting off", self.parts_from_off),
        ]
    }
}

/// The root's side has 81 moves; to the last of them the other side has 8 replies. So 80 open leaves stand below the
/// root and 8 below its one expanded child.
#[test]
fn the_empty_game_after_two_expansions() {
    for rule in 0..3 {
        let (fields, tree) = search_and_tree(&Position::start().write(), rule, 90, u64::MAX, 2, 10_000, Stay::Off);
        assert_eq!(fields.to_string(), "Unknown 1 81 90 0 0 0 2 1");
        let Tree::Expanded { own: true, children, .. } = &tree else { panic!("the root is expanded") };
        let expanded = children.iter().position(|child| *child != Tree::Open).expect("one child is expanded");
        assert_eq!((children.len(), leaves(&children[expanded]), leaves(&tree)), (81, 8, 88));
        let all: Set = (1 << 88) - 1;
        let replies: Set = 0xFF << expanded;
        let moves = all & !replies;

        // True: no leaves are not enough. Of the single leaves the 80 are, the 8 are not.
        assert_eq!(root(&tree, 0, true), None);
        assert!(each(all).all(|leaf| root(&tree, leaf, true) == (moves & leaf != 0).then_some(true)));

        // False: the 80 and one of the 8 are enough, and none of these can be left out.
        for reply in each(replies) {
            assert_eq!((moves | reply).count_ones(), 81);
            assert_eq!(root(&tree, moves | reply, false), Some(false));
            assert!(needs_each_leaf(&tree, moves | reply, false));
        }
        // Fewer are not: all 88 but one of the 80 leave the root open, and so do the 80 alone.
        assert!(each(moves).all(|leaf| root(&tree, all & !leaf, false).is_none()));
        assert_eq!(root(&tree, moves, false), None);
    }
}

/// Trees made by hand, of which the sets are known.
#[test]
fn sets_of_small_trees() {
    use Tree::{Open, Solved};
    let own = |children: &[Tree]| Tree::Expanded { own: true, last: None, children: children.to_vec() };
    let other = |children: &[Tree]| Tree::Expanded { own: false, last: None, children: children.to_vec() };
    let both = |tree: &Tree| (smallest(tree, true), smallest(tree, false));
    assert_eq!(both(&Open), (vec![0b1], vec![0b1]));
    assert_eq!(both(&own(&[Open, Open])), (vec![0b01, 0b10], vec![0b11]));
    assert_eq!(both(&other(&[Open, Open])), (vec![0b11], vec![0b01, 0b10]));
    assert_eq!(both(&own(&[Open, other(&[Open, Open])])), (vec![0b001], vec![0b011, 0b101]));
    let replies = own(&[Solved(false), other(&[Open, Solved(true), Open])]);
    assert_eq!(both(&replies), (vec![0b11], vec![0b01, 0b10]));
    let two = own(&[other(&[Open, Open]), other(&[Open, Open])]);
    assert_eq!(both(&two), (vec![0b0011, 0b1100], vec![0b0101, 0b0110, 0b1001, 0b1010]));
    assert_eq!(smallest(&own(&[Solved(true), Open]), true), [0]);
    assert_eq!(smallest(&other(&[Solved(false), Open]), false), [0]);
}
