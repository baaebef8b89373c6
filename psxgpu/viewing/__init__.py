"""Pages of the viewer with recordings inside: `psxgpu page`, `psxgpu view`, and the pages that reports link."""
