"""What stands beside the program: scripts imported, reports as data, studies."""
