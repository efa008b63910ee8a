"""The parts of tcrx_bench.py: a server of one spacecraft's telecommand receiver for many connections."""
