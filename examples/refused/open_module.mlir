// A module that isn't closed: no text goes on from its end, so the fault is there.
module {
