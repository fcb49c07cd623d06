"""For how many frames a switch interrupts the customers of a healthy ring, by the table of docs/RING.md; fibre delay not included."""


def farthest(size, spans):
    """The most frames of an event without a row: by the search that docs/RING.md describes for up to two spans, and as proved for more."""
    return 5 * size - 3 if spans <= 2 else 12 * size + 102


def span_frames(size, wait):
    """A span cut both ways, and mended."""
    if size == 2:
        return 4, 2 if wait == 0 else farthest(2, 1)
    return 4 * size - 4, 2 if wait == 0 else 4 * size - 6


def fibre_frames(size, wait):
    """One fibre cut, and mended; the larger number where the table has two."""
    failed, mended = {2: (farthest(2, 1), farthest(2, 1)), 3: (9, 8)}.get(size, (4 * size - 4, 4 * size - 4))
    return failed, farthest(size, 1) if wait == 0 else mended


def frames_of(plan, fibres):
    """The most frames that a circuit is out when these fibres are cut, one of them on its arc, and when they are mended."""
    spans = {plan.span(*fibre) for fibre in fibres}
    whole = len(fibres) == 2 * len(spans)
    if len(spans) == 1:
        return span_frames(plan.size, plan.wait) if whole else fibre_frames(plan.size, plan.wait)
    most = farthest(plan.size, len(spans))
    is_node = whole and len(spans) == 2 and any((span + 1) % plan.size in spans for span in spans)
    return (4 * plan.size - 8 if is_node and plan.size > 2 else most), most
