"""Second readings and models of what the program does. They share nothing with it, so that the two can be compared."""
