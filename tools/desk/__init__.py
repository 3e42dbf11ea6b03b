"""What the tools at the desk share: job files, tables in words, and what is refused."""
