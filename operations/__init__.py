"""What an operator needs. A module is named from the top of the repository: `operations.rigs.guest`."""
