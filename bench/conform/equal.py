"""Changes of the plain node that give the same answers to every stream, with the reason. Each is known by its function, what is changed, and which of
several such places in the function it is; a wrong body of the proved crates by its name. One that is found all the same is counted as found."""

EQUAL = {
    "sequence: 127 -> 126 (3)": "the scrambler's sequence is made longer than a frame, and cut to the frame's length",
    "Side.asks: not defect and self.ended is not None and (moment < self.ended + wait) -> self.ended is not None and moment < self.ended + wait (1)":
        "a side that has a defect and waits asks for the higher of both, which is the defect",
    "Look.offered: self.weight[d] > 0 -> self.weight[d] >= 0 (1)": "a side that weighs 0 then has a short word of its own, NR to the neighbour, which is what is sent without one",
    "Look.switches: if not WTR <= mine <= SD: left out (1)": "what is left weighs 0, and no side weighs less than that",
    "read_word: justification(v, value) if mode == NORM else (None, ()) -> justification(v, value) (1)":
        "a justification counts from three words after a change on, and outside `norm` that number is 0",
    "interpret: 0 -> 1 (4)": "the value of a candidate that has come no times is looked at by nobody",
    "interpret: 0 -> 1 (42)": "the number of words since a change is 0 after the next word of a lost pointer, and nobody looks at it before",
    "Stream.__init__: 64 -> 65 (1)": "a trace has at most 64 bytes, and those after them are never sent",
    "Stream.texts: 2340 -> 2339 (2)": "the text is repeated for longer than a VC-4 either way",
    "Stream.texts: 2340 -> 2341 (2)": "the text is repeated for longer than a VC-4 either way",
    "Stream.part: 1 -> 2 (1)": "one VC-4 more is made, and cut away",
    "Node.read: 0 -> 1 (1)": "AIS has a value that nobody looks at",
    "sdh_nodestate/a_low_long_word_hides_a_failure":
        "a side that weighs 11 hears no long word, since it fails or hears its neighbour's SF, so none is relayed that its own long word would stand behind",
}  # fmt: skip
