//! The added count of corners removed singly (docs/SCOPE.md, S21).
use std::cell::Cell;

thread_local! {
    static REMOVED: Cell<usize> = const { Cell::new(0) };
}

pub fn count_removed() {
    REMOVED.set(REMOVED.get() + 1);
}

/// `triangulate_polygon`, and how many corners it removed singly.
pub fn triangulate_counted(v: &[(f64, f64)]) -> (Vec<[usize; 3]>, usize) {
    REMOVED.set(0);
    let triangles = crate::tessellate::triangulate_polygon(v);
    (triangles, REMOVED.get())
}
