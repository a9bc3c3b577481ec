/* The function of the name that all files see. */
int begin(void) { return 22; }
