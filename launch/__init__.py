"""The parts of the launcher ./acmefs."""
