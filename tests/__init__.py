"""Tests of Gathjumli: CONTRIBUTING.md says which there are."""
