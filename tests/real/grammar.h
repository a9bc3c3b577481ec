/* Reads the sum that a line spells; `wrong` is set to where it is none, and else 0. */
long value_of(const char *line, const char **wrong);
