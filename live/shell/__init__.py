"""The shell of a gateway on real sockets: packets become lines of a trace, entries of its report become packets."""
