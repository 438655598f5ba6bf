// Stands behind the text of `mutual_recursion.rs`, whose private functions it calls.

/// What the functions above say of the unit as it stands, by rule id.
pub(crate) fn facts(unit: &GrammarUnit) -> crate::Facts {
    let names = rule_names(unit);
    let nullable = nullable_rules(unit, &names);
    let grammar = Grammar {
        names: &names,
        nullable: &nullable,
    };
    let id = |rule: &RuleId| crate::unload::sort_and_id(ModelNodeId::Rule(*rule)).1;
    let mut facts = crate::Facts {
        nullable: nullable.iter().map(id).collect(),
        ..crate::Facts::default()
    };
    for cycle in left_corner_cycles(unit, grammar) {
        facts.cycles.push(cycle.iter().map(id).collect());
    }
    for rule in &unit.rules {
        let mut calls = BTreeSet::new();
        collect_calls_into(&rule.block, &names, &mut |called| {
            calls.insert(called);
        });
        let mut corners = BTreeSet::new();
        for alternative in &rule.block.alternatives {
            collect_left_corner_calls(&alternative.elements, grammar, &mut corners);
        }
        let sets = [calls, corners].map(|set| set.iter().map(id).collect());
        facts.calls_and_corners.insert(id(&rule.id), sets);
        if satellite_is_inlinable(rule) {
            facts.inlinable.insert(id(&rule.id));
        }
    }
    facts
}

/// The planner, set upon one cycle of a unit as it stands.
pub(crate) struct Planner<'a> {
    loaded: &'a crate::load::Loaded,
    grammar: Grammar<'a>,
    cycle: Cycle,
}

/// Hands over the planner of each cycle.
pub(crate) fn planners(loaded: &crate::load::Loaded, see: &mut dyn FnMut(&Planner<'_>)) {
    let names = rule_names(&loaded.unit);
    let nullable = nullable_rules(&loaded.unit, &names);
    let grammar = Grammar {
        names: &names,
        nullable: &nullable,
    };
    for cycle in left_corner_cycles(&loaded.unit, grammar) {
        see(&Planner {
            loaded,
            grammar,
            cycle,
        });
    }
}

impl Planner<'_> {
    pub(crate) fn cycle(&self) -> Vec<u32> {
        let id = |rule: &RuleId| crate::unload::sort_and_id(ModelNodeId::Rule(*rule)).1;
        self.cycle.iter().map(id).collect()
    }

    /// Whether there is a plan; it is made and dropped.
    pub(crate) fn plans(&self) -> bool {
        std::hint::black_box(self.planned()).is_some()
    }

    /// The plan by ids. The steps are not told there.
    pub(crate) fn plan(&self) -> Option<crate::Plan> {
        self.planned().as_ref().map(unloaded)
    }

    fn planned(&self) -> Option<CyclePlan> {
        let loaded = self.loaded;
        plan_cycle(
            &loaded.unit,
            &self.cycle,
            self.grammar,
            &loaded.preserved,
            crate::load::references,
        )
    }
}

fn unloaded(plan: &CyclePlan) -> crate::Plan {
    let id = |rule: &RuleId| crate::unload::sort_and_id(ModelNodeId::Rule(*rule)).1;
    crate::Plan {
        hub: id(&plan.hub),
        steps: 0,
        alternatives: plan.alternatives.iter().map(unloaded_alternative).collect(),
        removable: plan.removable.iter().map(id).collect(),
    }
}

fn unloaded_alternative(planned: &PlannedAlternative) -> crate::Planned {
    let id = |node| crate::unload::sort_and_id(node).1;
    let element = |one: &Element| {
        let quantifier = crate::unload::quantifier(one.quantifier);
        (id(ModelNodeId::Element(one.id)), quantifier)
    };
    crate::Planned {
        label_from: id(ModelNodeId::Alternative(planned.label_from)),
        origin: id(ModelNodeId::Alternative(planned.origin)),
        verbatim: planned.verbatim,
        options: crate::unload::options(&planned.options),
        elements: planned.elements.iter().map(element).collect(),
    }
}
