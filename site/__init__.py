"""The operator's kit of radacctd: one service for pages, one store, one command line.

Each folder is a feature, and `core` is what they share: docs are in each folder's README."""
