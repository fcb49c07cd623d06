"""Networks of rings: customers that cross several rings, and what fails in more than one of them at once."""
