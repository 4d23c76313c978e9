"""Tests of the office's tools: tools/test."""
