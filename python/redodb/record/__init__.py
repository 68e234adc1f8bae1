"""What a build tool knows of a tree, as a history: `redodb record ninja|make|depfiles DIR`."""
