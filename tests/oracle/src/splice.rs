//! What document 02, ticket 11, says of the merged sheet's tree, term and labels, by the Rust: its trees, put together by
//! hand, its export of them, and its labels.
use crate::{
    answer::Finding,
    graft::{graft, is_open},
    reference::{export, placed},
    sheet::{decode, Sheet},
    sound,
    walk::{self, Place},
};
use alice::kernel::{
    checker::identifier::Identifier,
    proof::Proof,
    proof_term::*,
    proof_tree::{ProofTree, ProofTreeConclusion, ProofTreeRule},
    prop::Prop,
};
use std::mem::replace;

/// What came of a graft that is accepted.
#[derive(Clone, Copy, PartialEq, Eq, PartialOrd, Ord, Debug)]
pub enum Spliced {
    /// The host does not export.
    NoHost,
    /// The walk does not reach the sorry: the merged sheet has the host's term.
    Unreached,
    /// The donor does not export for the sorry's place, nor does the merged sheet.
    NoDonor(Mode),
    /// The merged term is the host's with the donor's in the sorry's position.
    Term(Mode),
    /// The same, and the merged sheet is sound and accurate.
    Sound(Mode),
}

/// The sorry's place.
#[derive(Clone, Copy, PartialEq, Eq, PartialOrd, Ord, Debug)]
pub enum Mode {
    Checking,
    Inferring,
}

impl Mode {
    fn place(self) -> Place {
        match self {
            Mode::Checking => Place::Checking,
            Mode::Inferring => Place::Inferring,
        }
    }
}

/// A name that no sheet has.
const MARK: &str = "*";

fn ensure(holds: bool, what: &str) -> Result<(), Finding> {
    if holds {
        Ok(())
    } else {
        Err(what.into())
    }
}

/// The host's tree with another in the place of a step's.
fn planted(host: &Sheet, at: usize, step: usize, other: &ProofTree) -> ProofTree {
    if at == step {
        return other.clone();
    }
    let premisses = host.premisses[at].iter().map(|premiss| planted(host, *premiss, step, other)).collect();
    ProofTree { premisses, rule: host.rule(at), conclusion: host.conclusion(at) }
}

fn leaf(rule: ProofTreeRule, prop: Prop) -> ProofTree {
    ProofTree { premisses: vec![], rule, conclusion: ProofTreeConclusion::PropIsTrue(prop) }
}

/// What a tree exports to in a place.
fn exported_for(tree: ProofTree, mode: Mode) -> Option<ProofTerm> {
    match (export(&placed(tree, mode.place())).ok()?.proof_term, mode) {
        (ProofTerm::ProjectFst(ProjectFst(body, _)), Mode::Inferring) => Some(*body),
        (term, _) => Some(term),
    }
}

/// Of a graft that is accepted: the merged tree is the host's with the donor's in the place of the sorry's, and so are the
/// propositions; "if the walk reaches that sorry and both the host and the merged sheet export, its bare term is the host's
/// with the donor's in the sorry's position, and its labels are the host's, less that sorry's own, plus the donor's as
/// exported for that place"; and "the accuracy statement covers merges whose result is sound". None of one that is refused.
pub fn spliced(host: &[u8], step: usize, donor: &[u8]) -> Result<Option<Spliced>, Finding> {
    let Ok(new) = graft(host, step, donor, None) else {
        return in_order(host, step, donor).map(|()| None);
    };
    let [host, donor, new] = [host, donor, &new].map(|bytes| decode(bytes).map_err(|refusal| refusal.to_string()));
    let (host, donor, new) = (host?, donor?, new?);
    let (one, other, tree) = (host.tree(host.root()), donor.tree(donor.root()), new.tree(new.root()));
    ensure(tree == planted(&host, host.root(), step, &other), "the merged tree is not the two put together")?;
    let props = |sheet: &Sheet| sheet.props.iter().map(|prop| sheet.prop(prop)).collect::<Vec<_>>();
    ensure(props(&new) == [props(&host), props(&donor)].concat(), "the propositions are not the two sheets'")?;
    ensure(new.goal == host.goal, "the goal is not the host's")?;
    let columns = |sheet: &Sheet| sheet.steps.iter().map(|step| step.column).collect::<Vec<_>>();
    let mut kept = columns(&host);
    kept.splice(step..=step, columns(&donor));
    ensure(columns(&new) == kept, "columns are not kept")?;
    let Ok(before) = export(&one) else { return Ok(Some(Spliced::NoHost)) };
    let after = export(&tree).ok();
    let outcome = of_terms(&host, step, other, &before, after.as_ref())?;
    match outcome {
        Spliced::Term(mode) if sound::sound(&new).is_ok() => {
            let export = walk::export(&new).map_err(|refusal| refusal.to_string())?;
            sound::accurate(&new, &export)?;
            Ok(Some(Spliced::Sound(mode)))
        }
        _ => Ok(Some(outcome)),
    }
}

/// Of one that is refused with 26 or 27, that the Rust's trees say so too.
fn in_order(host: &[u8], step: usize, donor: &[u8]) -> Result<(), Finding> {
    let (Ok(one), Ok(other), Err(refused)) = (decode(host), decode(donor), graft(host, step, donor, None)) else {
        return Ok(());
    };
    let sorry = |sheet: &Sheet| sheet.rule(step) == ProofTreeRule::Sorry && sheet.premisses[step].is_empty();
    let open = step < one.steps.len() && sorry(&one);
    ensure(open == is_open(&one, step), "another step is a Sorry without premisses")?;
    let same = open && one.conclusion(step) == other.conclusion(other.root());
    ensure(
        refused.refusal.number
            == if !open {
                26
            } else if !same {
                27
            } else {
                28
            },
        "another refusal",
    )
}

fn of_terms(
    host: &Sheet,
    step: usize,
    donor: ProofTree,
    before: &Proof,
    after: Option<&Proof>,
) -> Result<Spliced, Finding> {
    let marked = |leaf: ProofTree| export(&planted(host, host.root(), step, &leaf));
    let ident = ProofTreeRule::Ident(Identifier::new(MARK.into(), 0));
    let hole = marked(leaf(ident, Prop::True)).map_err(|number| format!("with a name for the sorry: {number}"))?;
    let times = occurrences(&hole.proof_term);
    ensure(times <= 1, "the sorry stands in the term twice")?;
    if times == 0 {
        let same = after.is_some_and(|after| {
            after.proof_term == before.proof_term
                && (&after.atoms, &after.datatypes) == (&before.atoms, &before.datatypes)
        });
        return ensure(same, "a sorry that the walk does not reach changes the term").map(|()| Spliced::Unreached);
    }
    let named = marked(leaf(ProofTreeRule::Sorry, Prop::Atom(MARK.into(), vec![])));
    let named = named.map_err(|number| format!("with a proposition for the sorry's: {number}"))?;
    let inferring = named.atoms.contains(&(MARK.to_string(), 0));
    let mode = if inferring { Mode::Inferring } else { Mode::Checking };
    let own = exported_for(host.tree(step), mode).ok_or("the sorry does not export")?;
    ensure(before.proof_term == filled(&hole.proof_term, &own), "the host's term is not its own with a hole")?;
    let (grafted, after) = match (exported_for(donor, mode), after) {
        (Some(grafted), Some(after)) => (grafted, after),
        (None, None) => return Ok(Spliced::NoDonor(mode)),
        _ => return Err("the donor exports for that place, or the merged sheet does, and not both".into()),
    };
    ensure(after.proof_term == filled(&hole.proof_term, &grafted), "the donor's term is not in the sorry's position")?;
    let bare_host = filled(&bare(&hole.proof_term), &ProofTerm::Sorry(None));
    ensure(bare(&before.proof_term) == bare_host, "the host's bare term has no sorry there")?;
    let bare_donor = filled(&bare(&hole.proof_term), &bare(&grafted));
    ensure(bare(&after.proof_term) == bare_donor, "the bare terms differ")?;
    let mut expected = labels(&before.proof_term);
    for label in labels(&own) {
        let at = expected.iter().position(|other| *other == label).ok_or("the sorry's label is none of the host's")?;
        expected.remove(at);
    }
    expected.extend(labels(&grafted));
    let mut found = labels(&after.proof_term);
    (expected.sort(), found.sort());
    ensure(expected == found, "the labels are not the host's, less the sorry's own, plus the donor's")?;
    ensure(after.proof_term.annotation_count() == found.len(), "another label count")?;
    Ok(Spliced::Term(mode))
}

/// The parts of a term, in order.
fn parts(term: &mut ProofTerm) -> Vec<&mut ProofTerm> {
    match term {
        ProofTerm::Sorry(_) | ProofTerm::Unit(_) | ProofTerm::Ident(_) => vec![],
        ProofTerm::Pair(Pair(fst, snd, _)) => vec![fst, snd],
        ProofTerm::Application(Application { function, applicant, .. }) => vec![function, applicant],
        ProofTerm::LetIn(LetIn { head, body, .. }) => vec![head, body],
        ProofTerm::Case(Case { head, fst_term, snd_term, .. }) => vec![head, fst_term, snd_term],
        ProofTerm::Function(Function { body, .. }) => vec![body],
        ProofTerm::TypeAscription(TypeAscription { proof_term, .. }) => vec![proof_term],
        ProofTerm::ProjectFst(ProjectFst(body, _)) | ProofTerm::ProjectSnd(ProjectSnd(body, _)) => vec![body],
        ProofTerm::OrLeft(OrLeft(body, _)) | ProofTerm::OrRight(OrRight(body, _)) => vec![body],
        ProofTerm::Abort(Abort(body, _)) => vec![body],
    }
}

/// Shows each node of a term, parts before the whole; what is seen may be changed.
fn see(term: &mut ProofTerm, each: &mut dyn FnMut(&mut ProofTerm)) {
    parts(term).into_iter().for_each(|part| see(part, each));
    each(term);
}

fn is_mark(term: &ProofTerm) -> bool {
    matches!(term, ProofTerm::Ident(Ident(name, _)) if name == MARK)
}

fn occurrences(term: &ProofTerm) -> usize {
    let mut count = 0;
    see(&mut term.clone(), &mut |term| count += is_mark(term) as usize);
    count
}

/// The labels of a term, in words that differ where they do.
fn labels(term: &ProofTerm) -> Vec<String> {
    let mut all = vec![];
    see(&mut term.clone(), &mut |term| match term {
        ProofTerm::TypeAscription(TypeAscription { ascription, .. }) => all.push(format!("{ascription:?}")),
        ProofTerm::Function(Function { param_type: Some(label), .. }) => all.push(format!("{label:?}")),
        _ => {}
    });
    all
}

/// The term with another where the mark stands.
fn filled(term: &ProofTerm, other: &ProofTerm) -> ProofTerm {
    let mut term = term.clone();
    see(&mut term, &mut |term| {
        if is_mark(term) {
            *term = other.clone();
        }
    });
    term
}

/// The term without its labels.
fn bare(term: &ProofTerm) -> ProofTerm {
    let mut term = term.clone();
    see(&mut term, &mut |term| match term {
        ProofTerm::Function(Function { param_type, .. }) => *param_type = None,
        ProofTerm::TypeAscription(TypeAscription { proof_term, .. }) => {
            *term = replace(&mut **proof_term, ProofTerm::Unit(None));
        }
        _ => {}
    });
    term
}
