"""`python3 -m chainlat` is `chainlat-tools`."""

from .tools.main import main

main()
