"""The commands of the program, a module each: the lines of its answer, the answer, and the function that asks it."""
