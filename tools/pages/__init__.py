"""Makes the pages of out/docs: what the crates promise, clause by clause, down to the words of the kit."""
