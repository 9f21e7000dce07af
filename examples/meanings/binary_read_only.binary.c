char *text(void) { return "a"; }
