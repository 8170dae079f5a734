"""The parts of tools/affedit-check: files and folders are checked by a dictionary that is named. docs/COMMAND.md says how."""
