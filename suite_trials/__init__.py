"""What tests the conformance suite itself: a plain model of the machine, planted faults, changes of the model, released
expectations and stored results. `python3 -m suite_trials.NAME` runs a module from the top of a checkout."""
