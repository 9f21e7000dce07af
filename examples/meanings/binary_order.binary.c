int theirs;
