"""For a course: exercises with their sheets and keys, and answers that are marked."""
