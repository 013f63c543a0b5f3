// Empty: the parser writes nothing.
