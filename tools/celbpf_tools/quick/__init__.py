"""Programs that are compiled from the sources without a proof."""
