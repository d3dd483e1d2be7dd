
// Not of the original: this text is put after it, in its module, to read what is private there.
impl Scope<'_> {
    /// What the scopes from this one to the root hold, counted anew.
    pub(super) fn records(&self) -> limits::Records {
        let mut sum = limits::Records::default();
        let mut scope = Some(self);
        while let Some(s) = scope {
            let values = s.bindings.iter().map(|(_, v)| v.value.borrow().size().nodes);
            let constants = s.constants.values().map(|v| v.size().nodes);
            sum.scopes += 1;
            sum.live += s.bindings.len() + s.constants.len();
            sum.recorded += values.sum::<usize>() + constants.sum::<usize>();
            scope = s.parent;
        }
        sum
    }

    /// This scope's bindings, oldest first, each with its own mark.
    pub(super) fn own_marks(&self) -> Vec<(Id, bool)> {
        let own = |(id, v): (&Id, &VarInfo)| (id.clone(), v.inline_prevented.get());
        self.bindings.iter().map(own).collect()
    }
}
