"""What holds in a ring by a list of alarms, what may be commanded, and which repair comes first."""
