"""Pictures of a history: `redodb picture run|graph FILE`."""
