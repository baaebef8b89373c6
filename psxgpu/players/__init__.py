"""Players: psxgpu_tool and other programs that play captures, run and compared."""
