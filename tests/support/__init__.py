"""What the tests share: the programs under test, how they are run, and how their answers are read."""
