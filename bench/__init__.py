"""How fast the program is: workloads, players side by side, instructions. Each module is run as `python3 -m bench.NAME`."""
