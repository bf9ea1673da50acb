//! Demand 3 on sound sheets: document 01's "Sound", and where labels sit. That the term is accepted is `judging`'s answer.
use crate::{
    judging::{check, Verdict},
    sheet::{rule, Sheet, Step},
    walk::{place, row, Export, Label, Place},
};
use alice::kernel::{proof_term::*, prop::Prop};

/// A hypothesis: name, id, proposition.
type Scope = Vec<(String, u16, Prop)>;

/// Is the sheet sound, without quantifiers? If not, at which step.
pub fn sound(sheet: &Sheet) -> Result<(), String> {
    if !sheet.props.iter().all(|f| f.quantifier_free()) {
        return Err("a proposition has a quantifier or an uninstantiated parameter".into());
    }
    let props: Vec<Prop> = sheet.props.iter().map(|f| sheet.prop(f)).collect();
    let mut scope = Scope::new();
    sound_step(sheet, &props, sheet.root(), &mut scope)
}

fn sound_step(sheet: &Sheet, props: &[Prop], i: usize, scope: &mut Scope) -> Result<(), String> {
    let step = &sheet.steps[i];
    let concluded = |i: usize| {
        let Step { kind, conclusion, .. } = sheet.steps[i];
        (kind == 0).then(|| &props[conclusion[0] as usize]).ok_or(format!("step {i} concludes a type judgement"))
    };
    let own = concluded(i)?;
    let premisses: Vec<&Prop> = sheet.premisses[i].iter().map(|j| concluded(*j)).collect::<Result<_, _>>()?;
    let ident = |k: usize| (sheet.name(step.idents[k].0), step.idents[k].1);
    // The hypothesis added over each premiss.
    let mut added = vec![None; premisses.len()];
    let fits = match (step.rule, &premisses[..]) {
        (rule::AND_INTRO, [l, r]) => *own == Prop::And(l.boxed(), r.boxed()),
        (rule::AND_ELIM_FST, [Prop::And(l, _)]) => *own == **l,
        (rule::AND_ELIM_SND, [Prop::And(_, r)]) => *own == **r,
        (rule::TRUE_INTRO, []) => *own == Prop::True,
        (rule::IMPL_INTRO, [r]) => match own {
            Prop::Impl(left, right) => {
                added[0] = Some((ident(0).0, ident(0).1, (**left).clone()));
                **right == **r
            }
            _ => false,
        },
        (rule::IMPL_ELIM, [Prop::Impl(l, r), argument]) => **l == **argument && *own == **r,
        (rule::IDENT, []) => {
            let (name, id) = ident(0);
            scope.iter().any(|(n, i, p)| *n == name && *i == id && p == own)
        }
        (rule::OR_INTRO_FST, [l]) => matches!(own, Prop::Or(left, _) if **left == **l),
        (rule::OR_INTRO_SND, [r]) => matches!(own, Prop::Or(_, right) if **right == **r),
        (rule::OR_ELIM, [Prop::Or(l, r), fst, snd]) => {
            added[1] = Some((ident(0).0, ident(0).1, (**l).clone()));
            added[2] = Some((ident(1).0, ident(1).1, (**r).clone()));
            *fst == own && *snd == own
        }
        (rule::FALSUM_ELIM, [Prop::False]) => true,
        (rule::SORRY, []) => true,
        (rule::ALPHA, [premiss]) => *premiss == own,
        _ => false,
    };
    if !fits {
        return Err(format!("step {i} is unsound"));
    }
    for (j, new) in sheet.premisses[i].iter().zip(added) {
        let adds = new.is_some();
        if let Some(new) = new {
            if scope.iter().any(|(n, ..)| *n == new.0) {
                return Err(format!("step {i} adds a name already in scope"));
            }
            scope.push(new);
        }
        sound_step(sheet, props, *j, scope)?;
        if adds {
            scope.pop();
        }
    }
    Ok(())
}

/// Walks steps and term side by side: a label must sit on the term of a step exactly when the
/// step is an injection, an abort, a sorry or a function in an inferring place. Gives their sum.
fn labels(sheet: &Sheet, i: usize, own: Place, term: &ProofTerm) -> Result<usize, String> {
    let (step, premisses) = (&sheet.steps[i], &sheet.premisses[i]);
    if step.rule == rule::ALPHA {
        return labels(sheet, premisses[0], own, term);
    }
    let (_, places, label) = row(step.rule);
    let inferring = own == Place::Inferring;
    let (mut bare, mut labelled) = (term, false);
    if let ProofTerm::TypeAscription(TypeAscription { proof_term, .. }) = term {
        (bare, labelled) = (proof_term, true);
    }
    if labelled != (inferring && label == Label::Ascribed) {
        return Err(format!("step {i}: ascribed {labelled}"));
    }
    let parts: Vec<&ProofTerm> = match (step.rule, bare) {
        (rule::IDENT, ProofTerm::Ident(_)) => vec![],
        (rule::TRUE_INTRO, ProofTerm::Unit(_)) => vec![],
        (rule::SORRY, ProofTerm::Sorry(_)) => vec![],
        (rule::AND_INTRO, ProofTerm::Pair(Pair(fst, snd, _))) => vec![fst, snd],
        (rule::AND_ELIM_FST, ProofTerm::ProjectFst(ProjectFst(body, _))) => vec![body],
        (rule::AND_ELIM_SND, ProofTerm::ProjectSnd(ProjectSnd(body, _))) => vec![body],
        (rule::OR_INTRO_FST, ProofTerm::OrLeft(OrLeft(body, _))) => vec![body],
        (rule::OR_INTRO_SND, ProofTerm::OrRight(OrRight(body, _))) => vec![body],
        (rule::FALSUM_ELIM, ProofTerm::Abort(Abort(body, _))) => vec![body],
        (rule::IMPL_ELIM, ProofTerm::Application(Application { function, applicant, .. })) => {
            vec![function, applicant]
        }
        (rule::IMPL_INTRO, ProofTerm::Function(Function { param_type, body, .. })) => {
            if param_type.is_some() != inferring {
                return Err(format!("step {i}: function labelled {}", param_type.is_some()));
            }
            labelled = inferring;
            vec![body]
        }
        (rule::OR_ELIM, ProofTerm::Case(Case { head, fst_term, snd_term, .. })) => vec![head, fst_term, snd_term],
        _ => return Err(format!("step {i}: another term than its rule's")),
    };
    let mut sum = labelled as usize;
    for ((part, at), premiss) in parts.iter().zip(places).zip(premisses) {
        sum += labels(sheet, *premiss, place(*at, own), part)?;
    }
    Ok(sum)
}

/// Demand 3 for one sound sheet and what was exported of it.
pub fn accurate(sheet: &Sheet, export: &Export) -> Result<(), String> {
    let root = sheet.prop(sheet.concluded(sheet.root()).unwrap());
    if let Verdict::No(node) = check(&[], &export.term, &root) {
        return Err(format!("the term is not accepted for the root's proposition: the rules stop at node {node}"));
    }
    let sum = labels(sheet, sheet.root(), Place::Checking, &export.term)?;
    if sum != export.labels {
        return Err(format!("sum of labels {sum}, annotation_count {}", export.labels));
    }
    Ok(())
}
