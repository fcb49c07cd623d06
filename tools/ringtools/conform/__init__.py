"""Whether a node obeys the rules of the ring: a suite of streams, a device that runs it, and a verdict for each rule."""
