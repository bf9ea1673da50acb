//! Formulas that are alpha equal to a given one, or nearly.
use super::draft::Draft;
use crate::{
    formula::{Binary, Formula, Parameter, Quantifier},
    sheet::PARAMETERS,
};

impl Draft {
    /// The formula with bound objects renamed and, less often, one node changed.
    pub fn variant(&mut self, f: &Formula) -> Formula {
        let mut f = f.clone();
        let renaming = *self.rng.pick(&[0, 30, 100]);
        self.rename(&mut f, renaming, &mut vec![]);
        if self.rng.chance(40) {
            let mut at = self.rng.below(f.nodes());
            self.edit(&mut f, &mut at);
        }
        f
    }

    /// Renames bound objects, with the parameters they bind; sometimes into another's name.
    fn rename(&mut self, f: &mut Formula, chance: usize, renamed: &mut Vec<(u16, u16)>) {
        match f {
            Formula::True | Formula::False => {}
            Formula::Binary(_, l, r) => {
                self.rename(l, chance, renamed);
                self.rename(r, chance, renamed);
            }
            Formula::Quantified(_, object, _, body) => {
                let new = if self.rng.chance(chance) { self.word() } else { *object };
                renamed.push((*object, new));
                *object = new;
                self.rename(body, chance, renamed);
                renamed.pop();
            }
            Formula::Atom(_, parameters) => {
                for parameter in parameters {
                    if let Parameter::Uninstantiated(name) = parameter {
                        let binding = renamed.iter().rev().find(|(old, _)| old == name);
                        *name = binding.map_or(*name, |(_, new)| *new);
                    }
                }
            }
        }
    }

    /// Changes the node that `at` counts down to.
    fn edit(&mut self, f: &mut Formula, at: &mut usize) {
        if *at == 0 {
            self.edit_node(f);
        }
        *at = at.wrapping_sub(1);
        match f {
            Formula::Binary(_, l, r) => {
                self.edit(l, at);
                self.edit(r, at);
            }
            Formula::Quantified(.., body) => self.edit(body, at),
            Formula::True | Formula::False | Formula::Atom(..) => {}
        }
    }

    fn edit_node(&mut self, f: &mut Formula) {
        match f {
            Formula::True => *f = Formula::False,
            Formula::False => *f = Formula::True,
            Formula::Binary(connective, ..) => {
                *connective = *self.rng.pick(&[Binary::And, Binary::Or, Binary::Impl]);
            }
            Formula::Quantified(quantifier, object, datatype, _) => match self.rng.below(3) {
                0 => *quantifier = *self.rng.pick(&[Quantifier::ForAll, Quantifier::Exists]),
                1 => *object = self.word(),
                _ => *datatype = self.word(),
            },
            Formula::Atom(name, parameters) => match self.rng.below(4) {
                0 => *name = self.word(),
                1 => drop(parameters.pop()),
                2 if parameters.len() < PARAMETERS => {
                    parameters.push(Parameter::Instantiated(self.word(), self.id()));
                }
                _ if parameters.is_empty() => {}
                _ => {
                    let at = self.rng.below(parameters.len());
                    parameters[at] = match self.rng.chance(60) {
                        true => Parameter::Uninstantiated(self.word()),
                        false => Parameter::Instantiated(self.word(), self.id()),
                    };
                }
            },
        }
    }
}
