"""The trials of the engine. A module is named from the top of the repository: `tests.system.meaning`."""
