"""What the program `schedule` does, a module for each task. It rests on the package `model`, which says what a file's bytes mean and what
each call does; what happened in a run is always taken from what `rangelog` or `rangepages` wrote, and held to the model."""
