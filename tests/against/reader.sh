# Sourced by the scripts beside it: builds the original from its folder, with nothing added but a reader of its list.
# usage: build_original FOLDER OUTPUT [SED-EXPRESSION [OPTION]]   (the expression plants a fault in a copy of hole.rs)
build_original() {
    local from=$1 out=$2 fault=${3:-}
    local copy
    copy=$(mktemp -d "$(dirname "$out")/copy.XXXXXX")
    cp "$from/src/lib.rs" "$from/src/hole.rs" "$copy/"
    if [ -n "$fault" ]; then
        cp "$copy/hole.rs" "$copy/before"
        sed -i "$fault" "$copy/hole.rs"
        if cmp -s "$copy/hole.rs" "$copy/before"; then echo "against: the planted fault does not fit this copy of hole.rs" >&2; return 1; fi
    fi
    cat >>"$copy/hole.rs" <<'R'

impl HoleList {
    /// Added for the comparison: each hole's address and size, in order.
    pub fn read_list(&self, each: &mut dyn FnMut(usize, usize)) {
        let mut at = self.first.next;
        while let Some(hole) = at {
            each(hole.as_ptr() as usize, unsafe { hole.as_ref() }.size);
            at = unsafe { hole.as_ref() }.next;
        }
    }

    /// Added for the comparison: pending bytes.
    pub fn read_pending(&self) -> usize {
        self.pending_extend as usize
    }
}
R
    cat >>"$copy/lib.rs" <<'R'

impl Heap {
    /// Added for the comparison.
    pub fn read_list(&self, each: &mut dyn FnMut(usize, usize)) {
        self.holes.read_list(each)
    }

    /// Added for the comparison.
    pub fn read_pending(&self) -> usize {
        self.holes.read_pending()
    }
}
R
    rustc --edition 2018 -O ${4:+"$4"} -C panic=unwind --crate-type rlib --crate-name linked_list_allocator -A warnings \
        "$copy/lib.rs" -o "$out"
    rm -rf "$copy"
}
