
// ---- behind this line: bench/src/visitor.rs, put here by bench/build.rs

/// Records each event in document 01's five words.
pub(crate) struct Recorder<'f, 'a> {
    fields: &'f [FieldRef<'a>],
    open: u64,
    pub(crate) events: Vec<[u64; 5]>,
}

impl<'f, 'a> Recorder<'f, 'a> {
    /// Into the space of `events`, which is emptied first.
    pub(crate) fn new(fields: &'f [FieldRef<'a>], mut events: Vec<[u64; 5]>) -> Self {
        events.clear();
        Self {
            fields,
            open: 0,
            events,
        }
    }

    fn write(&mut self, depth: u64, kind: u64, group: GroupSpec<'_>, a: u64, b: u64) {
        self.events
            .push([kind, u64::from(group.count_tag()), depth, a, b]);
    }
}

impl<'s> Visitor<'s> for Recorder<'_, '_> {
    const TRACK: bool = true;

    fn enter_group(&mut self, group: GroupSpec<'s>) {
        self.open += 1;
        self.write(self.open - 1, 1, group, 0, 0);
    }

    fn invalid_count(&mut self, group: GroupSpec<'s>, value: &[u8]) {
        let same = |field: &FieldRef<'_>| std::ptr::eq(field.value, value);
        let position = self.fields.iter().position(same).unwrap_or(usize::MAX);
        self.write(self.open - 1, 2, group, position as u64, 0);
    }

    fn delimiter_mismatch(&mut self, group: GroupSpec<'s>, found: u32) {
        self.write(self.open - 1, 3, group, u64::from(found), 0);
    }

    fn repeated_tag(&mut self, group: GroupSpec<'s>, tag: u32) {
        self.write(self.open - 1, 4, group, u64::from(tag), 0);
    }

    fn entry_closed(&mut self, group: GroupSpec<'s>, entry: u64, seen: &EntryTags<'s>) {
        let distinct: u32 = seen.words().iter().map(|word| word.count_ones()).sum();
        self.write(self.open - 1, 5, group, entry, u64::from(distinct));
    }

    fn count_mismatch(&mut self, group: GroupSpec<'s>, declared: u64, actual: u64) {
        self.write(self.open - 1, 6, group, declared, actual);
    }

    fn too_deep(&mut self, group: GroupSpec<'s>) {
        self.write(self.open, 7, group, 0, 0);
    }

    fn leave_group(&mut self, group: GroupSpec<'s>, well_formed: bool, entries: u64) {
        self.write(self.open - 1, 8, group, u64::from(well_formed), entries);
        self.open -= 1;
    }
}
