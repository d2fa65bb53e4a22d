"""An independent reading of the rules, to which the program is compared."""
