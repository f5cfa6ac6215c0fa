//! The search of MANUAL, Search a third time, as plain as can be, over the original's moves: every round goes down from
//! the root, all numbers on the way are worked out anew, and the test of a margin is the one in floats. Held to the
//! oracle's searches with staying on a line off and with margins, in every field and in every node of the tree where
//! they ended, with the move that each node remembers.

use calls::line::Verdict;
use calls::record::LENGTH;
use calls::table::search_refusal;
use calls::{Call, Fields, Position, Stay};
use oracle::game::{Game, GameState, Player};
use oracle::generate::{ending, late, Random};
use oracle::{load, search_and_tree, Tree};
use std::collections::BTreeMap;

const INFINITY: u64 = 2_147_483_648;

/// What a search is given.
#[derive(Clone, Debug)]
struct Given {
    record: [u8; LENGTH],
    rule: u64,
    pool: u64,
    limit: u64,
    budget: u64,
    interval: u64,
    /// None with the setting off.
    margin: Option<f64>,
}

struct Node {
    game: Game,
    /// The byte of the move that led to it.
    by: u8,
    phi: u64,
    delta: u64,
    last: Option<u8>,
    /// From the child made last on; none if it is not expanded.
    children: Option<Vec<Node>>,
}

struct Machine<'a> {
    given: &'a Given,
    side: Player,
    allocated: u64,
    freed: u64,
    proved: u64,
    disproved: u64,
    expanded: u64,
}

/// The pool has too few nodes for the leaf.
struct Short;

impl Node {
    fn solved(&self) -> bool {
        self.phi == 0 || self.delta == 0
    }

    fn below(&self) -> u64 {
        self.children.iter().flatten().map(|child| 1 + child.below()).sum()
    }

    /// The place of the child that is gone to.
    fn chosen(&self, margin: Option<f64>) -> usize {
        let children = self.children.as_deref().expect("it is expanded");
        let kept = margin.and_then(|margin| {
            let place = children.iter().position(|child| Some(child.by) == self.last)?;
            let bound = self.phi as f64 * (1.0 + margin);
            (!children[place].solved() && children[place].delta as f64 <= bound).then_some(place)
        });
        let first = || children.iter().position(|child| child.delta == self.phi);
        kept.or_else(first).expect("a child has the least delta")
    }

    fn tree(&self, side: Player) -> Tree {
        let own = self.game.player() == side;
        match &self.children {
            _ if self.solved() => Tree::Solved(if own { self.phi == 0 } else { self.delta == 0 }),
            None => Tree::Open,
            Some(children) => {
                let children = children.iter().map(|child| child.tree(side)).collect();
                Tree::Expanded { own, last: self.last, children }
            }
        }
    }
}

impl Machine<'_> {
    fn new_node(&self, game: Game, by: u8) -> Node {
        let own = game.player() == self.side;
        let value = match game.game_state() {
            GameState::InPlay => None,
            GameState::Won(winner) => Some(winner == self.side),
            GameState::Drawn => Some(if self.given.rule == 0 { !own } else { self.given.rule == 2 }),
        };
        let (phi, delta) = match value {
            None => (1, 1),
            Some(value) if value == own => (0, INFINITY),
            Some(_) => (INFINITY, 0),
        };
        Node { game, by, phi, delta, last: None, children: None }
    }

    /// Steps 2 to 5 at a node that is not solved and all below it.
    fn round(&mut self, node: &mut Node) -> Result<(), Short> {
        match node.children {
            None => self.expand(node)?,
            Some(_) => {
                let place = node.chosen(self.given.margin);
                let child = &mut node.children.as_mut().expect("it is expanded")[place];
                node.last = Some(child.by);
                self.round(child)?
            }
        }
        self.renumber(node);
        Ok(())
    }

    fn expand(&mut self, leaf: &mut Node) -> Result<(), Short> {
        let mut children = Vec::new();
        for m in leaf.game.all_moves() {
            let child = self.new_node(leaf.game.make_move(m).expect("a listed move is legal"), m.bits());
            let ends = child.delta == 0;
            children.insert(0, child);
            if ends {
                break;
            }
        }
        let made = children.len() as u64;
        if self.given.pool - (self.allocated - self.freed) < made {
            return Err(Short);
        }
        self.allocated += made;
        self.expanded += 1;
        leaf.children = Some(children);
        Ok(())
    }

    fn renumber(&mut self, node: &mut Node) {
        let children = node.children.as_deref().expect("it is expanded");
        node.phi = children.iter().map(|child| child.delta).min().expect("a leaf has a move");
        node.delta = children.iter().map(|child| child.phi).sum();
        if node.solved() {
            self.freed += node.below();
            node.children = Some(Vec::new());
            let is_true = (node.game.player() == self.side) == (node.phi == 0);
            *(if is_true { &mut self.proved } else { &mut self.disproved }) += 1;
        }
    }
}

/// The fields, and the tree where the search ended.
fn search(given: &Given) -> (Fields, Tree) {
    let game = load::game(&given.record);
    let side = game.player();
    let mut machine = Machine { given, side, allocated: 1, freed: 0, proved: 0, disproved: 0, expanded: 0 };
    let mut root = machine.new_node(game, 0xFF);
    let mut cause = 0;
    while cause == 0 && !root.solved() {
        if machine.expanded == given.budget {
            cause = 1;
        } else if machine.round(&mut root).is_err() {
            cause = 2;
        } else if machine.expanded.is_multiple_of(given.interval) && machine.allocated - machine.freed > given.limit {
            cause = 3;
        }
    }
    let verdict = match (root.phi, root.delta) {
        (0, _) => Verdict::True,
        (_, 0) => Verdict::False,
        _ => Verdict::Unknown,
    };
    let cause = if root.solved() { 0 } else { cause };
    let Machine { allocated, freed, proved, disproved, expanded, .. } = machine;
    let (proof, disproof) = (root.phi, root.delta);
    (Fields { verdict, proof, disproof, allocated, freed, proved, disproved, expanded, cause }, root.tree(side))
}

/// A search of an ending or a late position: most end soon, by each cause.
fn generated(random: &mut Random) -> Given {
    let record = if random.once_in(3) { late(random) } else { ending(random) }.write();
    let (pool, limit, budget) = match random.below(4) {
        0 => (1 + random.below(200), u64::MAX, 400),
        1 => (3_276, random.below(60), 400),
        _ => (3_276, u64::MAX, random.below(400)),
    };
    let number = random.pick(&[0, 0, 1, 63, 64, 127, 128, 255, 256, 256]);
    let margin = (!random.once_in(5)).then_some(number as f64 / 256.0);
    Given { record, rule: random.below(3), pool, limit, budget, interval: 1 + random.below(5), margin }
}

/// What a search of cases.txt is given; none if the call is another one or refused.
fn of_a_case(call: Call) -> Option<Given> {
    let Call::Search { record, rule, pool, limit, budget, interval, stay } = call else { return None };
    if search_refusal(&record, rule, pool, budget, interval, stay).is_some() {
        return None;
    }
    let (record, margin) = (record.try_into().ok()?, stay.in_256ths().map(|number| number as f64 / 256.0));
    Some(Given { record, rule, pool, limit, budget, interval, margin })
}

#[test]
fn the_oracle_searches_as_the_plain_machine_does() {
    let mut random = Random::new(1);
    let mut seen: BTreeMap<String, usize> = BTreeMap::new();
    let cases = oracle::cases::calls().filter_map(of_a_case);
    for given in cases.chain((0..4_000).map(|_| generated(&mut random))) {
        let Given { record, rule, pool, limit, budget, interval, margin } = &given;
        let oracles = |stay| search_and_tree(record, *rule, *pool, *limit, *budget, *interval, stay);
        let found = oracles(margin.map_or(Stay::Off, Stay::margin));
        assert_eq!(found, search(&given), "{:?}", given);
        let parts = margin.is_some() && found.0 != oracles(Stay::Off).0;
        let setting = margin.map_or("off".to_string(), |margin| margin.to_string());
        *seen.entry(format!("margin {}", setting)).or_default() += 1;
        *seen.entry(format!("cause {}", found.0.cause)).or_default() += 1;
        *seen.entry("another result with the setting off".to_string()).or_default() += usize::from(parts);
    }
    assert!(seen.len() == 14 && seen.values().all(|times| *times > 100), "{:#?}", seen);
}

/// The remembered moves with the setting off are those with a margin, where the same children are taken.
#[test]
fn moves_are_remembered_with_the_setting_off_too() {
    let remembered = |stay| {
        let (_, tree) = search_and_tree(&Position::start().write(), 0, 3_276, u64::MAX, 2, 10_000, stay);
        let Tree::Expanded { last, children, .. } = tree else { panic!("the root is expanded") };
        let inner = children.into_iter().find_map(|child| match child {
            Tree::Expanded { last, .. } => Some(last),
            _ => None,
        });
        (last, inner)
    };
    for stay in [Stay::Off, Stay::of_256ths(0), Stay::of_256ths(256)] {
        assert_eq!(remembered(stay), (Some(0x88), Some(None)));
    }
}
