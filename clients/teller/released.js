// The day of this release, by which the tellers' page and the calculator find a clock that is wrong. A test compares it with the packages' changelog.
export const RELEASED = "2026-11-30";
