"""Tests of the package psxgpu and its command."""
