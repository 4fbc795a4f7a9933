"""The command line `chainlat-tools`, a module a command."""
