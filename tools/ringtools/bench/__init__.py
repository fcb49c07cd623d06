"""What sdhring-bench is made of: a ring of programs, joined to one another by pipes."""
