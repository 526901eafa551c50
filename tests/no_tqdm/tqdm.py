"""tqdm as it is where python3-tqdm isn't installed: tests/progress.sh puts this folder first."""

raise ImportError("there is no tqdm here")
