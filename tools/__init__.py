"""What makes and checks this repository: each module is a command with --help."""
