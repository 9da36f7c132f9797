"""Makes commands of the line protocol of compare/README.md."""
