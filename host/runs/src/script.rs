//! The script language: one call a line, one answer line a call. The original's driver and the program `settle` read it too.

use imbolaverk::{
    Assigned, Condition, Conjunct, Decision, Mode, Node, Refusal, Requirement, Store, TERMS, TERM_CELLS, TRAIL_ENTRIES,
};
use std::fmt::Write;

/// One call of a script, with the arguments of the [`Store`]'s method that it makes.
#[derive(Clone, Debug, PartialEq)]
#[allow(missing_docs)]
pub enum Call {
    Fresh,
    VersionSet { version_set: u32, name: u32 },
    Union { union: u32, members: Vec<u32> },
    Candidates { requirement: Requirement, lists: Vec<Vec<u32>> },
    LookUp(Requirement),
    Disjunction { disjunction: u32, literals: Vec<(u32, bool)> },
    Node { node: u32, content: Node },
    Register { parent: u32, requirement: Requirement, condition: Condition, clause: u32 },
    Hot(u32),
    Activity { name: u32, bits: u32 },
    Mode(Mode),
    Assign { variable: u32, value: bool, level: u32, clause: u32 },
    UndoLast,
    UndoUntil(u32),
    Next,
    ClauseOf(u32),
    ValueOf(u32),
    LevelOf(u32),
    Trail { room: usize },
    Sync,
    Propose,
    Rewrite { node: u32, terms: usize, cells: usize },
    Holds(Vec<Conjunct>),
}

fn number(word: &str) -> Option<u32> {
    word.parse().ok()
}

fn numbers(words: &[&str]) -> Option<Vec<u32>> {
    words.iter().map(|word| number(word)).collect()
}

fn flag(word: &str) -> Option<bool> {
    match word {
        "0" => Some(false),
        "1" => Some(true),
        _ => None,
    }
}

fn requirement(kind: &str, id: &str) -> Option<Requirement> {
    match kind {
        "s" => Some(Requirement::Single(number(id)?)),
        "u" => Some(Requirement::Union(number(id)?)),
        _ => None,
    }
}

/// Lists with `;` between them; `none` alone is no list.
fn lists(words: &[&str]) -> Option<Vec<Vec<u32>>> {
    if words == ["none"] {
        return Some(vec![]);
    }
    words.split(|word| *word == ";").map(numbers).collect()
}

impl Call {
    /// The call that a line says, if it says one.
    pub fn read(line: &str) -> Option<Call> {
        let words: Vec<&str> = line.split_whitespace().collect();
        let (&name, rest) = words.split_first()?;
        Some(match (name, rest) {
            ("fresh", []) => Call::Fresh,
            ("vs", [set, name]) => Call::VersionSet { version_set: number(set)?, name: number(name)? },
            ("union", [union, members @ ..]) => Call::Union { union: number(union)?, members: numbers(members)? },
            ("cand", [kind, id, cells @ ..]) => Call::Candidates { requirement: requirement(kind, id)?, lists: lists(cells)? },
            ("lookup", [kind, id]) => Call::LookUp(requirement(kind, id)?),
            ("disj", [disjunction, literals @ ..]) if literals.len() % 2 == 0 => Call::Disjunction {
                disjunction: number(disjunction)?,
                literals: literals
                    .chunks(2)
                    .map(|literal| Some((number(literal[0])?, flag(literal[1])?)))
                    .collect::<Option<_>>()?,
            },
            ("node", [node, kind, left, right]) => {
                let (left, right) = (number(left)?, number(right)?);
                let content = match *kind {
                    "leaf" => Node::Leaf { version_set: left },
                    "and" => Node::And { left, right },
                    "or" => Node::Or { left, right },
                    _ => return None,
                };
                Call::Node { node: number(node)?, content }
            }
            ("register", [parent, kind, id, condition, clause]) => Call::Register {
                parent: number(parent)?,
                requirement: requirement(kind, id)?,
                condition: match *condition {
                    "-" => Condition::None,
                    id => Condition::Disjunction(number(id)?),
                },
                clause: number(clause)?,
            },
            ("hot", [name]) => Call::Hot(number(name)?),
            ("activity", [name, bits]) => Call::Activity { name: number(name)?, bits: number(bits)? },
            ("mode", [mode]) => Call::Mode(if flag(mode)? { Mode::Standard } else { Mode::AllClauses }),
            ("assign", [variable, value, level, clause]) => {
                Call::Assign { variable: number(variable)?, value: flag(value)?, level: number(level)?, clause: number(clause)? }
            }
            ("undo_last", []) => Call::UndoLast,
            ("undo_until", [level]) => Call::UndoUntil(number(level)?),
            ("next", []) => Call::Next,
            ("clause_of", [variable]) => Call::ClauseOf(number(variable)?),
            ("value_of", [variable]) => Call::ValueOf(number(variable)?),
            ("level_of", [variable]) => Call::LevelOf(number(variable)?),
            ("trail", []) => Call::Trail { room: TRAIL_ENTRIES },
            ("trail", [room]) => Call::Trail { room: number(room)? as usize },
            ("sync", []) => Call::Sync,
            ("propose", []) => Call::Propose,
            ("dnf", [node]) => Call::Rewrite { node: number(node)?, terms: TERMS, cells: TERM_CELLS },
            ("dnf", [node, terms, cells]) => {
                Call::Rewrite { node: number(node)?, terms: number(terms)? as usize, cells: number(cells)? as usize }
            }
            ("holds", []) => Call::Holds(vec![]),
            ("holds", conjuncts) => Call::Holds(
                conjuncts
                    .split(|word| *word == ";")
                    .map(|conjunct| match conjunct {
                        ["0", cells @ ..] => Some(Conjunct::Solvables(numbers(cells)?)),
                        ["1", cells @ ..] => Some(Conjunct::Empty(numbers(cells)?)),
                        _ => None,
                    })
                    .collect::<Option<_>>()?,
            ),
            _ => return None,
        })
    }

    /// The kind of call, for counting and timing.
    pub fn kind(&self) -> &'static str {
        match self {
            Call::Fresh => "fresh",
            Call::VersionSet { .. } => "vs",
            Call::Union { .. } => "union",
            Call::Candidates { .. } => "cand",
            Call::LookUp(_) => "lookup",
            Call::Disjunction { .. } => "disj",
            Call::Node { .. } => "node",
            Call::Register { .. } => "register",
            Call::Hot(_) => "hot",
            Call::Activity { .. } => "activity",
            Call::Mode(_) => "mode",
            Call::Assign { .. } => "assign",
            Call::UndoLast => "undo_last",
            Call::UndoUntil(_) => "undo_until",
            Call::Next => "next",
            Call::ClauseOf(_) => "clause_of",
            Call::ValueOf(_) => "value_of",
            Call::LevelOf(_) => "level_of",
            Call::Trail { .. } => "trail",
            Call::Sync => "sync",
            Call::Propose => "propose",
            Call::Rewrite { .. } => "dnf",
            Call::Holds(_) => "holds",
        }
    }

    /// Makes the call, and says the answer.
    pub fn answer(&self, store: &mut Store) -> String {
        self.made(store).unwrap_or_else(|refusal| match refusal {
            Refusal::DeadClause { clause, dropped } => format!("refused 8 {clause} {dropped}"),
            other => format!("refused {}", other.number()),
        })
    }

    fn made(&self, store: &mut Store) -> Result<String, Refusal> {
        let ok = |()| "ok".to_string();
        match self {
            Call::Fresh => store.make_fresh().map(ok),
            Call::VersionSet { version_set, name } => store.load_version_set(*version_set, *name).map(ok),
            Call::Union { union, members } => store.load_union(*union, members).map(ok),
            Call::Candidates { requirement, lists } => {
                let parts: Vec<&[u32]> = lists.iter().map(|list| list.as_slice()).collect();
                store.load_candidates(*requirement, &parts).map(ok)
            }
            Call::LookUp(requirement) => Ok(joined("cells", &store.candidates(*requirement)?)),
            Call::Disjunction { disjunction, literals } => store.load_disjunction(*disjunction, literals).map(ok),
            Call::Node { node, content } => store.load_condition(*node, *content).map(ok),
            Call::Register { parent, requirement, condition, clause } => {
                store.register(*parent, *requirement, *condition, *clause).map(ok)
            }
            Call::Hot(name) => store.mark_hot(*name).map(ok),
            Call::Activity { name, bits } => store.set_activity(*name, f32::from_bits(*bits)).map(ok),
            Call::Mode(mode) => store.set_mode(*mode).map(ok),
            Call::Assign { variable, value, level, clause } => {
                let assigned = store.assign(*variable, *value, *level, *clause)?;
                Ok(if assigned == Assigned::New { "new" } else { "already" }.to_string())
            }
            Call::UndoLast => {
                let popped = store.undo_last()?;
                Ok(format!("popped {} {}", entry(&popped.decision), popped.level))
            }
            Call::UndoUntil(level) => store.undo_until(*level).map(ok),
            Call::Next => Ok(match store.next_unpropagated()? {
                Some(decision) => format!("next {}", entry(&decision)),
                None => "none".to_string(),
            }),
            Call::ClauseOf(variable) => Ok(match store.clause_of(*variable)? {
                Some(clause) => format!("clause {clause}"),
                None => "none".to_string(),
            }),
            Call::ValueOf(variable) => Ok(match store.value_of(*variable)? {
                Some((value, _)) => format!("value {}", value as u32),
                None => "value -".to_string(),
            }),
            Call::LevelOf(variable) => Ok(format!("level {}", store.value_of(*variable)?.map_or(0, |held| held.1))),
            Call::Trail { room } => {
                let entries: Vec<String> = store.trail_in(*room)?.iter().map(entry).collect();
                Ok(if entries.is_empty() { "trail".to_string() } else { format!("trail {}", entries.join(" ; ")) })
            }
            Call::Sync => Ok(format!("touches {}", store.sync()?)),
            Call::Propose => {
                let asked = store.propose()?;
                Ok(match asked.proposal {
                    Some(p) => format!(
                        "choose {} {} {} {} {} {}",
                        p.candidate,
                        p.parent,
                        p.clause,
                        p.activity.to_bits(),
                        p.count,
                        asked.dropped
                    ),
                    None => format!("nothing {}", asked.dropped),
                })
            }
            Call::Rewrite { node, terms, cells } => Ok(joined("dnf", &store.rewrite_in(*node, *terms, *cells)?)),
            Call::Holds(conjuncts) => Ok(format!("holds {}", store.disjunct_holds(conjuncts)? as u32)),
        }
    }
}

/// An entry of the trail.
fn entry(decision: &Decision) -> String {
    format!("{} {} {}", decision.variable, decision.value as u32, decision.clause)
}

/// A word, then lists with `;` between them.
fn joined(word: &str, lists: &[Vec<u32>]) -> String {
    let mut said = word.to_string();
    for (i, list) in lists.iter().enumerate() {
        if i > 0 {
            said.push_str(" ;");
        }
        for cell in list {
            write!(said, " {cell}").expect("writing to a string");
        }
    }
    said
}
