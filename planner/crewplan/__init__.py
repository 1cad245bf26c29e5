"""Plans the crews of a schedule, from flights and zones to whole pairings, by column generation over the engine."""
