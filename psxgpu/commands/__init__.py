"""The tools: one module for each `psxgpu NAME`, with its text, its arguments and what it runs."""
