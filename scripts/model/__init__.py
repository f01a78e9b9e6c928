"""A plain model of what the office answers, written from docs/DEFINITIONS.md; scripts/compare-model asks it."""
